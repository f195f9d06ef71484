"""The guest's initial file system, an archive of cpio's form newc: this machine's Python, the tools with their helpers and
programs, a few commands, and the files that the caller names. Each file is at its path, so that the words of a command mean
the same in the guest, and is root's. Rules of the archive: Documentation/driver-api/early-userspace/buffer-format.rst of the kernel."""

from __future__ import annotations

import argparse
import json
import os
import re
import shutil
import stat
import subprocess
from collections.abc import Container
from pathlib import Path
from typing import BinaryIO

from ..common.checker import BUILT as BUILT_CHECKER
from ..common.errors import InputFault, Unavailable
from ..common.files import named_faults
from ..common.helpers import LINUX, helper
from ..common.program import BUILT, ENVIRONMENT, find
from ..common.text import escape

PYTHON = "/usr/bin/python3"
LOADER = "/lib64/ld-linux-x86-64.so.2"
TOOLS = ("thpreplay", "thprecord", "whatif/thpwhatif")
COMMANDS = ("cat", "cp", "dmesg", "echo", "env", "false", "grep", "head", "id", "ls", "mkdir", "nproc", "rm", "sh", "sleep",
            "tail", "true", "uname")
FOLDERS_OF_CHECKOUT = ("linux", "tests", "examples", "bench")
BUILT_FOLDERS = {"__pycache__", "out", "target"}
UNUSED = {"__pycache__", "test", "tests", "idlelib", "lib2to3", "ensurepip", "tkinter", "turtledemo", "pydoc_data"}  # of Python
EMPTY_FOLDERS = ("/root", "/proc", "/sys", "/dev", "/run", "/var/cache")
MERGED = ("bin", "sbin", "lib", "lib64")  # links to the folders of /usr
MOST_FILE, MOST_FILES = 64 << 20, 100000  # bytes of a file, files of a folder
SEARCHED = "/usr/local/sbin:/usr/local/bin:/usr/sbin:/usr/bin:/sbin:/bin"
PASSWD = b"root:x:0:0:root:/root:/bin/sh\nnobody:x:65534:65534:nobody:/nonexistent:/usr/sbin/nologin\n"
GROUP = b"root:x:0:\nnogroup:x:65534:\n"
PROGRAM, FILE, LINK = 0o755 | stat.S_IFREG, 0o644 | stat.S_IFREG, 0o777 | stat.S_IFLNK
FOLDER, SHARED_FOLDER = 0o755 | stat.S_IFDIR, 0o1777 | stat.S_IFDIR


def path_in_guest(path: str) -> str:
    """Returns where a file of this machine is in the guest, whose programs and libraries are all below /usr."""
    return re.sub(f"^/({'|'.join(MERGED)})/", r"/usr/\1/", path)


def libraries_of(path: str) -> list[str]:
    """Returns the libraries that a program or library needs. The loader only lists them: nothing of the file is run."""
    done = subprocess.run([LOADER, "--list", path], env=ENVIRONMENT, stdin=subprocess.DEVNULL, capture_output=True, check=False)
    return re.findall(r"^\s+(?:\S+ => )?(/\S+) \(0x", os.fsdecode(done.stdout), re.MULTILINE)


def standard_library() -> str:
    """Returns the folder of the modules of the distribution's Python."""
    found = f"/usr/lib/{os.path.basename(os.path.realpath(PYTHON))}"
    if not os.path.isdir(found):
        raise Unavailable(f"no {PYTHON} with its modules in {found}")
    return found


class GuestFiles:
    """Writes the archive. Paths are absolute; the folders that one needs are made before it. What is in the archive already stays."""

    def __init__(self, out: BinaryIO) -> None:
        self._out = out
        self._paths = {""}
        self._programs: list[str] = []

    def add(self, path: str, mode: int, data: bytes = b"") -> None:
        """Adds a file, a folder or a link, whose data are its target."""
        path = path.rstrip("/")
        if path not in self._paths:
            self.add(path.rpartition("/")[0], FOLDER)
            self._paths.add(path)
            self._write(path.lstrip("/"), mode, data)

    def end(self) -> None:
        """Writes the end of the archive."""
        self._write("TRAILER!!!", 0, b"")

    def _write(self, name: str, mode: int, data: bytes) -> None:
        raw = os.fsencode(name) + b"\0"
        links = 2 if stat.S_ISDIR(mode) else 1
        fields = (len(self._paths), mode, 0, 0, links, 0, len(data), 0, 0, 0, 0, len(raw), 0)
        head = f"070701{''.join(f'{field:08x}' for field in fields)}".encode() + raw
        self._out.write(head + bytes(-len(head) % 4) + data + bytes(-len(data) % 4))

    def add_all(self, options: argparse.Namespace) -> None:
        """Adds everything that a command line needs (__main__.py), and the end."""
        for name in MERGED:
            self.add(f"/usr/{name}", FOLDER)
            self.add(f"/{name}", LINK, f"usr/{name}".encode())
        for folder in ("/tmp", "/var/tmp"):
            self.add(folder, SHARED_FOLDER)
        for folder in (*EMPTY_FOLDERS, path_in_guest(os.getcwd())):
            self.add(folder, FOLDER)
        self.add("/etc/passwd", FILE, PASSWD)
        self.add("/etc/group", FILE, GROUP)
        self.add("/init", PROGRAM, Path(__file__).with_name("init.py").read_bytes())
        library = standard_library()
        self._add_folder(library, UNUSED | {path.name for path in Path(library).glob("config-*")})
        self._add_tools()
        for name in ("python3", *COMMANDS):
            self._add_found(shutil.which(name, path=SEARCHED))
        for path in options.file:
            self._add_named(os.path.abspath(path))
        command = [self._add_command(options.command[0]), *options.command[1:]]
        self._add_libraries()
        self.add("/etc/thpvm.json", FILE, json.dumps({"command": command, "folder": os.getcwd()}).encode())
        self.end()

    def _add_file(self, path: str, place: str = "") -> None:
        """Adds a file of this machine at its path, or at another one; its libraries later."""
        found = os.stat(path)
        if not stat.S_ISREG(found.st_mode) or found.st_size > MOST_FILE:
            raise InputFault(f"{escape(path)} is no regular file, or has more than {MOST_FILE >> 20} MiB")
        data = Path(path).read_bytes()
        self.add(path_in_guest(place or path), PROGRAM if found.st_mode & stat.S_IXUSR else FILE, data)
        if data[:4] == b"\x7fELF":
            self._programs.append(path)

    def _add_folder(self, path: str, unused: Container[str] = ()) -> None:
        """Adds a folder's files, without the folders whose names are unused in the guest."""
        count = 0
        for folder, folders, names in os.walk(path):
            folders[:] = sorted(name for name in folders if name not in unused)
            count += len(names)
            if count > MOST_FILES:
                raise InputFault(f"{escape(path)} has more than {MOST_FILES} files")
            for each in (os.path.join(folder, name) for name in sorted(names)):
                if os.path.isfile(each):
                    self._add_file(each)

    def _add_tools(self) -> None:
        """Adds the tools, so that their names alone start them, their helpers, and the programs that they call."""
        is_checkout = (LINUX / "tests").is_dir()
        for name in FOLDERS_OF_CHECKOUT if is_checkout else ("linux",):
            self._add_folder(str(LINUX.parent / name), BUILT_FOLDERS)
        for name in sorted({"mapper", "thpkernel.so", *(path.name for path in (LINUX / "out").glob("*") if path.is_file())}):
            self._add_file(helper(name))
        for tool in TOOLS:
            name = os.path.basename(tool)
            path = LINUX / tool if is_checkout else LINUX.parents[2] / "bin" / name
            self._add_file(str(path))
            self.add(f"/usr/bin/{name}", LINK, os.fsencode(path))
        for name, built in (("thpsplit", BUILT), ("thpcheck", BUILT_CHECKER)):
            self._add_found(find(name, built), f"/usr/bin/{name}")

    def _add_found(self, path: str | None, place: str = "") -> None:
        """Adds a program, if it was found, with what its path leads to."""
        if path:
            self._add_file(os.path.realpath(path), place or path)

    def _add_named(self, path: str) -> None:
        """Adds a file or folder that the caller names."""
        with named_faults(path, "can't be put into the guest"):
            if os.path.isdir(path):
                self._add_folder(path)
            else:
                self._add_file(path)

    def _add_command(self, word: str) -> str:
        """Adds the program of a command, and returns the command's first word in the guest."""
        if "/" not in word:
            if f"/usr/bin/{word}" not in self._paths:
                self._add_found(shutil.which(word, path=SEARCHED))
            return word
        path = os.path.abspath(word)
        if os.path.isfile(path):
            self._add_file(path)
        return path

    def _add_libraries(self) -> None:
        """Adds the libraries of all programs, and the loader."""
        if not os.path.exists(LOADER):
            raise Unavailable(f"no {LOADER}: the guest has the form of x86-64")
        for path in dict.fromkeys([LOADER, *(each for program in self._programs for each in libraries_of(program))]):
            self._add_found(path)
