"""python3 -m linux.whatif"""

from .program import main

main()
