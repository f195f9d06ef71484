"""A foreign program for thprecord: large strings that are made, kept for a while and dropped, in no order.

    thprecord --underused as-is -- env GLIBC_TUNABLES=glibc.malloc.hugetlb=1 python3 strings.py SEED COUNT
"""

import random
import sys

chance = random.Random(int(sys.argv[1]))
kept = []
for _ in range(int(sys.argv[2])):
    kept.append(b"x" * chance.randrange(33 << 20, 50 << 20))
    while len(kept) > 4 or (kept and chance.random() < 0.3):
        kept.pop(chance.randrange(len(kept)))
