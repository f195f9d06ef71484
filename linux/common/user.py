"""The users as whom other programs are run: the caller of `sudo`, a named one, or one without any right."""

from __future__ import annotations

import ctypes
import grp
import os
import pwd
import re
import resource
from contextlib import suppress
from dataclasses import dataclass
from functools import lru_cache
from typing import Any

from .errors import InputFault, Unavailable
from .files import read
from .text import escape, text_lines

UNUSED = range(0x78000000, 0x7FFE0000)  # above SSSD's and shadow's numbers, below systemd's foreign ones
TRIES = 100
PR_SET_NO_NEW_PRIVS = 38  # include/uapi/linux/prctl.h
_LIBC = ctypes.CDLL(None)


@dataclass(frozen=True)
class User:
    """A user's numbers, name and home."""

    number: int
    group: int
    groups: list[int]
    name: str
    home: str

    @property
    def is_caller(self) -> bool:
        """Whether this tool runs as this user already."""
        return self.number == os.geteuid()

    def enter(self) -> None:
        """Makes this process the user's, for good. To be called in a child, before the other program."""
        if os.geteuid() == 0:
            os.setgroups(self.groups)
            os.setresgid(self.group, self.group, self.group)
            os.setresuid(self.number, self.number, self.number)
        resource.setrlimit(resource.RLIMIT_CORE, (0, resource.getrlimit(resource.RLIMIT_CORE)[1]))

    def rights(self) -> dict[str, Any]:
        """Returns the words of subprocess.Popen by which a program runs as this user."""
        return {} if self.is_caller else {"user": self.number, "group": self.group, "extra_groups": self.groups}

    def environment(self) -> dict[str, str]:
        """Returns the environment of the user's programs: the caller's, with this user's name and home."""
        out = {name: value for name, value in os.environ.items() if not name.startswith("SUDO_")}
        if not self.is_caller:
            out.update(HOME=self.home, USER=self.name, LOGNAME=self.name)
        return out


def user_for(name: str | None) -> User:
    """Returns the user of a name or number; without one, the caller of `sudo`, or the caller. InputFault where there is
    no such user, Unavailable where the caller may not run programs as another user."""
    behind = os.environ.get("SUDO_UID") if os.geteuid() == 0 else None
    given = next(each for each in (name, behind, str(os.geteuid())) if each is not None)
    try:
        found = pwd.getpwuid(int(given)) if re.fullmatch(r"[0-9]{1,9}", given) else pwd.getpwnam(given)
    except (KeyError, ValueError) as error:
        raise InputFault(f"no user {escape(given)[:40]}") from error
    if os.geteuid() not in (0, found.pw_uid):
        raise Unavailable(f"not root: programs can't be run as {found.pw_name}")
    groups = os.getgrouplist(found.pw_name, found.pw_gid)
    return User(found.pw_uid, found.pw_gid, groups, found.pw_name, found.pw_dir)


@lru_cache(maxsize=None)
def user_without_rights() -> User:
    """Returns the user of this run's programs, so that nobody can signal them: its number is one of many that no system gives to an
    account. The caller where this tool isn't root. Unavailable where there is no such number."""
    if os.geteuid() != 0:
        return User(os.geteuid(), os.getegid(), [], "", "/")
    maps = [[map(int, line.split()) for line in text_lines(read(f"/proc/self/{kind}_map"))] for kind in ("uid", "gid")]
    high = min(UNUSED.stop, *(max(first + count for first, _, count in each) for each in maps))
    low = max(high - len(UNUSED), high // 2)  # a user namespace may have few numbers
    for _ in range(TRIES):
        number = low + int.from_bytes(os.urandom(8), "little") % (high - low)
        if not has_account(number):
            return User(number, number, [], "", "/")
    raise Unavailable("no number of a user is unused here")


def has_account(number: int) -> bool:
    """Returns whether a user or group has this number."""
    for find in (pwd.getpwuid, grp.getgrgid):
        with suppress(KeyError):
            find(number)
            return True
    return False


def give_up_rights() -> None:
    """Has this process gain no right by any program, and write no core file. To be called in a child."""
    _LIBC.prctl(PR_SET_NO_NEW_PRIVS, 1, 0, 0, 0)
    resource.setrlimit(resource.RLIMIT_CORE, (0, 0))
