"""What is built from C, by linux/Makefile, into a folder `out`: helpers, and the library of BPF programs. The tools compile nothing."""

from __future__ import annotations

from pathlib import Path

from .errors import Unavailable
from .text import escape

LINUX = Path(__file__).resolve().parent.parent
INSTALLED = ("lib", "thpsplit", "linux")  # the end of LINUX where `make install` put the tools
PACKAGES = "gcc, make, clang, bpftool, libbpf-dev"  # packages.txt: build


def helper(name: str) -> str:
    """Returns the path of a built program or library (`mapper`). Unavailable where it isn't built."""
    path = LINUX / "out" / name
    if not path.exists():
        is_installed = LINUX.parts[-3:] == INSTALLED
        how = "this installation lacks it" if is_installed else f"make -C {escape(str(LINUX))} builds it (Debian: {PACKAGES})"
        raise Unavailable(f"{name} isn't built: {how}")
    return str(path)
