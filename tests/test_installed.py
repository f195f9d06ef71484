"""`make uninstall` removes exactly the files of `make install`; manual pages and completions are sound.

A stand-in replaces the built programs, so nothing is proved or built here except what the tools for the running kernel have in C, which
runs from the folder of the installation.
"""

from __future__ import annotations

import os
import re
import shutil
import subprocess
from pathlib import Path
from typing import IO
from unittest import SkipTest, TestCase

from fixtures import ROOT, add_tests, require_tool, temporary_folder
from test_library import is_unprotected

PROGRAMS = {"thpsplit": "thp_cli/src/options.rt", "thpcheck": "thp_journal_tools/src/program.rt",
            "thpdraw": "thp_journal_tools/src/draw_program.rt"}
"""The programs, and the sources of their options."""

FORMATS_PAGE = "docs/thpsplit.5"
TOOLS = {"thpreplay": "linux/thpreplay", "thprecord": "linux/thprecord", "thpvm": "linux/thpvm",
         "thpwhatif": "linux/whatif/thpwhatif"}
"""The tools for the running kernel, and their files in a checkout."""

COMMANDS = ("now", "snapshot", "what-if", "target", "watch", "verify", "policies")
"""The commands of `thpwhatif`."""

HELPERS = ("mapper", "pages.so", "thpkernel.so", "workload")
"""What the tools have in C."""

OVER_LIBTHP = ("predict.so",)
"""What they have in C that needs libthp, which only a proof builds."""

UNITS = ("thpwhatif.service", "thpwhatif.timer")
"""The units of systemd."""

PUT = 16
"""The number of files installed of `thpsplit`, `thpcheck` and `thpdraw`."""

PREFIX = "usr/local"
"""The prefix of the installation, below a temporary folder."""


def make(target: str, folder: Path, *more: str) -> str | None:
    """What is wrong when `make` installs files below a folder, or removes them; or None. Skips the test if the tools can't be built."""
    words = ["make", "-s", target, f"PREFIX=/{PREFIX}", f"DESTDIR={folder}/root", f"PROGRAM={folder}/program",
             f"CHECKER={folder}/program", f"DRAWER={folder}/program", *more]
    done = subprocess.run(words, cwd=ROOT, capture_output=True, text=True, check=False)
    if "aren't installed: no " in done.stdout:
        raise SkipTest(done.stdout.strip())
    return None if done.returncode == 0 else f"make {target}: {done.stderr.strip()}"


def below(folder: Path) -> list[str]:
    """The files below a folder."""
    return sorted(str(path.relative_to(folder)) for path in folder.rglob("*") if path.is_file())


def tools_run(root: Path) -> str | None:
    """What is wrong with the help, the version and the files of a tool that is installed below a folder, or None. No unit is
    installed unless it is asked for."""
    version = re.search(r'VERSION: &str = "(.+)"', (ROOT / "crates/thp_cli/src/version.rt").read_text())
    assert version is not None
    for tool in TOOLS:
        for option, start in (("--help", f"usage: {tool} "), ("--version", f"{tool} {version[1]}\n")):
            done = called(root / PREFIX / "bin" / tool, option)
            if done.returncode or done.stderr or not done.stdout.startswith(start):
                return f"{tool} {option}: status {done.returncode}, {done.stdout[:80]!r}{done.stderr}"
            with open("/dev/full", "w") as full:
                done = called(root / PREFIX / "bin" / tool, option, out=full)
            if (done.returncode, done.stderr.count("\n")) != (3, 1):
                return f"{tool} {option} to a full device: status {done.returncode}, {done.stderr}"
    if below(root / PREFIX / "lib/thpsplit/linux/letters") != below(ROOT / "linux/letters"):
        return "the scripts of the known differences aren't installed"
    helpers, units = below(root / PREFIX / "lib/thpsplit/linux/out"), below(root / PREFIX / "lib/systemd")
    is_built = {*HELPERS} <= {*helpers} <= {*HELPERS, *OVER_LIBTHP}
    return None if is_built and not units else f"helpers: {helpers}, units: {units}"


def units_are_put(root: Path) -> str | None:
    """What is wrong with the units that are installed below a folder, or None. The service starts the installed tool."""
    folder = root / PREFIX / "lib/systemd/system"
    if below(folder) != list(UNITS):
        return f"units: {below(folder)}"
    modes = {oct((folder / name).stat().st_mode & 0o777) for name in UNITS}
    starts = re.findall(r"^ExecStart=(\S+)", (folder / UNITS[0]).read_text(), re.M)
    return None if (modes, starts) == ({"0o644"}, [f"/{PREFIX}/bin/thpwhatif"]) else f"modes {modes}, starts {starts}"


def called(program: Path, *words: str, out: int | IO[str] = subprocess.PIPE) -> subprocess.CompletedProcess[str]:
    """A program's end and outputs with these words."""
    wide = {**os.environ, "COLUMNS": "200"}
    return subprocess.run([program, *words], cwd="/", stdout=out, stderr=subprocess.PIPE, text=True, check=False, env=wide)


def page_is_sound(page: str) -> str | None:
    """A manual page gives no warning."""
    require_tool("groff")
    words = ["groff", "-man", "-Tascii", "-ww", "-z", page]
    done = subprocess.run(words, cwd=ROOT, capture_output=True, text=True, check=False)
    return done.stderr.strip() or None


OPTION = re.compile(r"--([a-z][a-z-]*)")


def options_of_tool(tool: str, *command: str) -> set[str]:
    """The options in the help of a tool for the running kernel, or of one of its commands."""
    lines = called(ROOT / TOOLS[tool], *command, "--help").stdout.splitlines()
    return {name for line in lines if line.startswith("  -") for name in OPTION.findall(re.split(r"\s{2,}", line.strip())[0])}


def all_options(name: str) -> set[str]:
    """The options of a program, of which the sources are read, or of a tool and of all its commands."""
    if name in PROGRAMS:
        source = (ROOT / "crates" / PROGRAMS[name]).read_text()
        return set(re.findall(r'(?:\.long\(|(?:flag|valued|number)\(\s*alloc,\s*)"([a-z]+)"', source)) | {"help", "version"}
    commands = [(command,) for command in COMMANDS] if name == "thpwhatif" else []
    return options_of_tool(name).union(*(options_of_tool(name, *command) for command in commands))


def options_differ(name: str, path: str) -> str | None:
    """A file contains each option of a program or tool, and no other; a manual page in its sections of options. In fish's form an option
    is `-l NAME`."""
    text, wanted = (ROOT / path).read_text().replace("\\-", "-"), all_options(name)
    if path.endswith(".1"):
        text = "".join(part for part in text.split("\n.SH ")[1:] if "OPTIONS" in part.partition("\n")[0])
    found = set(OPTION.findall(text)) | set(re.findall(r"^complete .* -l ([a-z-]+)", text, re.M))
    return None if found == wanted else f"lacks {sorted(wanted - found)}, and has {sorted(found - wanted)}"


def bash_completes(tool: str, *command: str) -> str | None:
    """Bash offers exactly the options of a tool, or of one of its commands."""
    require_tool("bash")
    words = " ".join([tool, *command, "--"])
    code = f"source {ROOT}/completions/{tool}.bash; COMP_WORDS=({words}); COMP_CWORD={len(command) + 1}; _{tool}"
    done = subprocess.run(["bash", "-c", f'{code}; echo "${{COMPREPLY[@]}}"'], cwd="/", capture_output=True, text=True, check=False)
    found, wanted = set(OPTION.findall(done.stdout)), options_of_tool(tool, *command)
    return None if found == wanted else f"lacks {sorted(wanted - found)}, and has {sorted(found - wanted)}{done.stderr}"


SHARED = ("Scripts", "Errors of a text", "Reports", "Journals")
"""The sections of docs/FORMATS.md whose tables are in thpsplit(5), too."""


def lacks_tables_of_formats() -> str | None:
    """The cells of the tables of docs/FORMATS.md that thpsplit(5) shares but lacks in the same section, or None."""
    document, roff = (ROOT / "docs/FORMATS.md").read_text(), (ROOT / FORMATS_PAGE).read_text()
    plain = re.sub(r"\\f[BIR]|^\.(?:TP|PP)$", "", roff, flags=re.M).replace("\\-", "-").replace("\\&", "")
    sections = {head.strip(): " ".join(text.split()) for head, _, text in (part.partition("\n") for part in plain.split("\n.SH "))}
    missing = []
    for name in SHARED:
        rows = re.findall(r"^\|(?!---)(.+)\|$", document.split(f"\n## {name}\n")[1].split("\n## ")[0], re.M)
        heads = [i + 1 for i, line in enumerate(rows) if i == 0 or line.startswith((" Event ", " Version "))]
        for at, row in enumerate(rows, 1):
            cells = [] if at in heads else [cell.replace("`", "").strip() for cell in row.split("|")]
            missing += [f"{name}: {cell}" for cell in cells if cell not in sections.get(name.upper(), "")]
    return "; ".join(missing[:3]) or None


def reads_as(shell: str, path: str) -> str | None:
    """A shell reads its completions."""
    require_tool(shell)
    done = subprocess.run([shell, "-n", path], cwd=ROOT, capture_output=True, text=True, check=False)
    return None if done.returncode == 0 and not done.stderr else done.stderr.strip() or f"status {done.returncode}"


class Installation(TestCase):
    """What `make` installs and removes, with units of systemd."""

    def setUp(self) -> None:
        self.folder = temporary_folder(self)
        self.root = self.folder / "root"
        (self.folder / "program").write_text("#!/bin/sh\n")
        (self.root / PREFIX / "bin").mkdir(parents=True)
        (self.root / PREFIX / "bin/another").touch()

    def test_make_install_and_uninstall(self) -> None:
        """All files are installed, helpers with full RELRO, and the tools run from there; after their removal another program's file
        is still there, and nothing else."""
        self.assertIsNone(make("put", self.folder))
        self.assertEqual(len(below(self.root)) - 1, PUT)
        self.assertIsNone(make("put-tools", self.folder) or tools_run(self.root))
        if shutil.which("readelf"):
            for helper in sorted((self.root / PREFIX / "lib/thpsplit/linux/out").glob("*")):
                self.assertIsNone(is_unprotected(helper))
        self.assertIsNone(make("put-tools", self.folder, "SYSTEMD=1") or units_are_put(self.root) or make("uninstall", self.folder))
        self.assertEqual(below(self.root), [f"{PREFIX}/bin/another"])
        self.assertFalse((self.root / PREFIX / "lib/thpsplit").exists())

    def test_units_of_systemd(self) -> None:
        """systemd finds no error in the units, and the service's command line is one of `thpwhatif`."""
        require_tool("systemd-analyze")
        words = []
        for name in UNITS:
            text = (ROOT / "linux/whatif" / name).read_text()
            words += re.findall(r"^ExecStart=/usr/bin/thpwhatif (.+)", text, re.M)
            (self.folder / name).write_text(text.replace("/usr/bin/thpwhatif", str(ROOT / TOOLS["thpwhatif"])))
        command = ["systemd-analyze", "verify", "--man=no", *(f"{self.folder}/{name}" for name in UNITS)]
        done = subprocess.run(command, capture_output=True, text=True, check=False)
        self.assertEqual((done.returncode, done.stderr), (0, ""))
        options = {word[2:] for word in words[0].split() if word.startswith("--")}
        self.assertLessEqual(options, options_of_tool("thpwhatif", words[0].split()[0]))


class Pages(TestCase):
    """Manual pages give no warning, and have exactly the options of a program or tool; one has the tables of docs/FORMATS.md."""

    def test_tables_of_formats(self) -> None:
        self.assertIsNone(lacks_tables_of_formats())


class Completions(TestCase):
    """Each shell reads its completions, which have exactly the options of a program or tool; Bash offers those of a tool."""


COMPLETIONS = {name: {"bash": f"completions/{name}.bash", "zsh": f"completions/_{name}", "fish": f"completions/{name}.fish"}
               for name in (*PROGRAMS, *TOOLS)}
"""The completions of each program and tool, by shell."""

CALLS = [*((tool,) for tool in TOOLS), *(("thpwhatif", command) for command in COMMANDS)]
"""What Bash completes by running a tool."""

add_tests(Pages, lambda _, page: page_is_sound(page),
          ((f"no warning in {page}", page) for page in (*(f"docs/{name}.1" for name in COMPLETIONS), FORMATS_PAGE, "docs/libthp.3")))
add_tests(Pages, lambda _, name: options_differ(name, f"docs/{name}.1"), ((f"options in docs/{name}.1", name) for name in COMPLETIONS))
add_tests(Completions, lambda _, row: options_differ(*row),
          ((f"options in {path}", (name, path)) for name, files in COMPLETIONS.items() for path in files.values()))
add_tests(Completions, lambda _, words: bash_completes(*words), ((f"bash completes {' '.join(words)}", words) for words in CALLS))
add_tests(Completions, lambda _, pair: reads_as(*pair),
          ((f"syntax of {pair[1]}", pair) for files in COMPLETIONS.values() for pair in files.items()))
