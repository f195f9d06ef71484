"""The platforms that a release is built for, and the tools that build it."""

from __future__ import annotations

from dataclasses import dataclass


@dataclass(frozen=True)
class Platform:
    """What the binaries of an archive run on."""

    name: str
    """Its name in that of the archive."""
    debian: str
    """Debian's name of the architecture."""
    processor: str
    """The processor that the binaries need."""
    gnu: str = ""
    """The prefix of the names of compiler and binutils, where this machine has another processor."""
    part: str = ""
    """The folder in a crate's out/ that has what was built for it."""
    flags: str = ""
    """What the compiler is given for the C half of the library, beside its usual options."""
    has_tools: bool = False
    """The tools for the running kernel run on it."""

    def tool(self, name: str) -> str:
        """The name of a tool, such as strip, for this platform."""
        return f"{self.gnu}{'gcc' if self.gnu and name == 'cc' else name}"

    def packages(self) -> dict[str, str]:
        """Each program that a release needs, and the Debian package that has it."""
        end = f"-{self.gnu[:-1]}" if self.gnu else ""
        tools = {self.tool("cc"): f"gcc{end}", self.tool("strip"): f"binutils{end}"}
        own = {"clang": "clang", "bpftool": "bpftool"} if self.has_tools else {}
        return {"git": "git", "make": "make", **tools, **own, "readelf": "binutils"}

    def variables(self) -> list[str]:
        """What make is given so that it uses the tools."""
        tools = {"CC": "cc", "LD": "ld", "AR": "ar", "OBJCOPY": "objcopy"}
        own = [f"{name}={self.tool(tool)}" for name, tool in tools.items()] if self.gnu else []
        return own + ([f"CPPFLAGS={self.flags}"] if self.flags else [])


AMD64 = Platform("x86_64-linux", "amd64", "x86-64-v2 (POPCNT, SSE4.2)", has_tools=True)

# the library's C half has one atomic counter: without the functions of libgcc, which choose an instruction when the program starts
ARM64 = Platform("aarch64-linux", "arm64", "aarch64 (Armv8.0-A)", "aarch64-linux-gnu-", "aarch64", "-mno-outline-atomics")

PLATFORMS = {it.debian: it for it in (AMD64, ARM64)}
"""Each platform, by Debian's name."""
