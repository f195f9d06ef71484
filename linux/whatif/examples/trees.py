"""An interpreter with something on its heap: syntax trees of its own library, half of them dropped again.

    PYTHONMALLOC=malloc GLIBC_TUNABLES=glibc.malloc.hugetlb=1 python3 trees.py

so that all objects lie in the heap of malloc, which asks for huge pages.
"""

import ast
import pathlib
import time

trees = []
for path in sorted(pathlib.Path(ast.__file__).parent.glob("*.py"))[:60]:
    trees.append(ast.parse(path.read_text(encoding="utf-8", errors="replace")))
del trees[::2]
while True:
    time.sleep(0.1)
    sum(1 for node in ast.walk(trees[0]))
