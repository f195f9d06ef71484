"""Tests of linux/ that need neither root nor the built program: `python3 tests/run.py linux/tests`."""
