"""Tools that compare the running kernel with `thpsplit`. Nothing in this folder is proved; see docs/LINUX.md."""
