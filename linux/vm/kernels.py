"""The kernel that a command line names: an image, a folder with a built kernel, or the file of a Debian package."""

from __future__ import annotations

import os
import shutil
import subprocess
from pathlib import Path

from ..common.errors import InputFault, RunFailed, Unavailable
from ..common.files import read_input
from ..common.text import escape

MOST_IMAGE = 256 << 20  # bytes
SECONDS = 600.0  # that the reading of a package gets
IN_PACKAGE = ("./boot/vmlinuz-*", "./usr/lib/modules/*/vmlinuz", "./lib/modules/*/vmlinuz")
IN_FOLDER = ("arch/x86/boot/bzImage", "arch/x86_64/boot/bzImage", "bzImage", "vmlinuz", "boot/vmlinuz-*",
             "usr/lib/modules/*/vmlinuz", "lib/modules/*/vmlinuz", "vmlinuz-*")
# a package may be anybody's: what reads one has 384 MiB of memory and 300 s of processor time, and runs nothing of it
FILE_OF = ('ulimit -v 393216; ulimit -t 300; dpkg-deb --fsys-tarfile "$1" | tar -xO --occurrence=1 --wildcards "$2" 2> /dev/null'
           f" | head -c {MOST_IMAGE}")
ENVIRONMENT = {"PATH": "/usr/sbin:/usr/bin:/sbin:/bin", "LC_ALL": "C.UTF-8", "DPKG_DEB_THREADS_MAX": "1"}
_MAGIC_AT, _MAGIC = 0x202, b"HdrS"  # Documentation/arch/x86/boot.rst


def read_package(package: str, pattern: str) -> bytes:
    """Returns the file of a package whose path a pattern fits, or nothing. RunFailed where the package can't be read."""
    if not shutil.which("dpkg-deb"):
        raise Unavailable("no dpkg-deb: packages can't be used here")
    words = ["sh", "-c", FILE_OF, "sh", os.path.abspath(package), pattern]
    try:
        done = subprocess.run(words, env=ENVIRONMENT, stdin=subprocess.DEVNULL, capture_output=True, check=False, timeout=SECONDS)
    except subprocess.TimeoutExpired as error:
        raise RunFailed(f"{escape(package)} can't be read as a package in {SECONDS:.0f} s") from error
    if done.stderr and not done.stdout:
        raise RunFailed(f"{escape(package)} can't be read as a package: {escape(done.stderr.strip().split(bytes([10]))[-1])[:200]}")
    return done.stdout


def image_in_folder(folder: str) -> str:
    """Returns the path of the kernel image in a folder. InputFault where there is none, or more than one of a kind."""
    for pattern in IN_FOLDER:
        found = sorted(path for path in Path(folder).glob(pattern) if path.is_file())
        if len(found) > 1:
            raise InputFault(f"{escape(folder)} has {len(found)} kernel images {pattern}: name one")
        if found:
            return str(found[0])
    raise InputFault(f"{escape(folder)} has no kernel image ({', '.join(IN_FOLDER[:2])}, ..)")


def find_kernel(text: str) -> tuple[str, bytes]:
    """Returns the kernel of a path: its name, as it is reported, and its image. InputFault where it is none, or none for x86."""
    path = image_in_folder(text) if os.path.isdir(text) else text
    is_package = path.endswith(".deb") and os.path.isfile(path)  # only the image is unpacked
    image = next(filter(None, (read_package(path, each) for each in IN_PACKAGE)), b"") if is_package else read_input(path, MOST_IMAGE)
    if image[_MAGIC_AT : _MAGIC_AT + len(_MAGIC)] != _MAGIC:
        raise InputFault(f"{escape(path)} has no kernel image for x86 (bzImage)")
    return escape(path), image
