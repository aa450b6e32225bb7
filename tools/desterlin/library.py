"""The proved library, which is built when it is first needed, by way of tools/call-library.c, compiled likewise."""

from __future__ import annotations

import contextlib
import fcntl
import hashlib
import os
import re
import shlex
import struct
import subprocess
import tempfile
from pathlib import Path
from typing import Iterator, List, Optional, Sequence, Set, Union

from .console import Progress, Trouble, complain, counted, told
from .rules import Finding, Refusal

ROOT = Path(__file__).resolve().parents[2]
SOURCE = ROOT / "tools" / "call-library.c"
HEADER = ROOT / "include" / "desterlin.h"
CRATE = ROOT / "crates" / "desterlin"
ARCHIVE = CRATE / "out" / "libdesterlin.a"
IN_ROOT = CRATE.relative_to(ROOT)
# In the folder of the crate.
BUILD = ["rt", "lib"]
THE_BUILD = f"{shlex.join(BUILD)} in {IN_ROOT}"
BUILT = ROOT / "target" / "tools"
FLAGS = ["-std=c99", "-O2", "-Wall", "-Wextra", "-Werror", f"-I{HEADER.parent}"]

# So much of what a failed build has said is told, where it does not say what is not proved.
LAST_LINES = 5

# What the tools say of the library in their help.
HELP = f"""\
The proved library is built where it is missing, which takes some minutes, as by:  cd {IN_ROOT} && {shlex.join(BUILD)}
DESTERLIN_LIBRARY may name another archive of it than {ARCHIVE.relative_to(ROOT)}.
"""
NO_BUILD_HELP = "do not build the proved library where it is missing"
HOW_TO_BUILD = f"cd {shlex.quote(str(CRATE))} && {shlex.join(BUILD)}"

# What rt says as it begins with a part.
BEGUN = re.compile(r"rt: chose --jobs \d+ for (\w+)$")

# What a linker says of an archive that is older than the header.
LACKS_A_CALL = re.compile(r"undefined (?:symbol|reference)\b.*\bdesterlin_")


def judged(octets: bytes) -> Union[Refusal, List[Finding]]:
    """All findings of a listing, in the library's order, or why it refuses the listing."""
    return answer(asked("report", octets).decode("ascii").splitlines())


def judged_metadata(octets: bytes, metadata: bytes) -> Union[Refusal, List[Finding]]:
    """The same of a metadata listing beside a listing, of which either may be refused."""
    return answer(asked("report-metadata", framed([octets, metadata])).decode("ascii").splitlines())


def written(parts: Sequence[bytes]) -> Union[Refusal, bytes]:
    """The listing of the seven parts, or why the library refuses to write it."""
    line, _, octets = asked("write", framed(parts)).partition(b"\n")
    words = line.decode("ascii", "replace").split()
    refusal = refused(words)
    if refusal is not None:
        return refusal
    if words != ["written", str(len(octets))]:
        raise Trouble(f"the library's listing breaks off after {counted(len(octets), 'octet')}")
    return octets


def framed(parts: Sequence[bytes]) -> bytes:
    """Several strings of octets as call-library takes them."""
    return struct.pack(f"<{len(parts)}Q", *map(len, parts)) + b"".join(parts)


def asked(what: str, octets: bytes) -> bytes:
    """What call-library answers."""
    caller = str(program())
    try:
        ran = subprocess.run([caller, what], input=octets, stdout=subprocess.PIPE, stderr=subprocess.PIPE, check=False)
    except OSError as error:
        raise Trouble(f"{caller}: cannot be run: {told(error)}") from error
    if ran.returncode != 0:
        words = ran.stderr.decode("utf-8", "replace").strip() or f"it ended with status {ran.returncode}"
        raise Trouble(f"the library's program failed: {words}")
    return ran.stdout


def answer(lines: List[str]) -> Union[Refusal, List[Finding]]:
    """What the lines of the desk program, or of call-library, say."""
    last = lines[-1].split() if lines else []
    refusal = refused(last)
    if refusal is not None:
        return refusal
    findings = list(read_findings(lines[:-1]))
    if last != ["total", str(len(findings))]:
        raise Trouble(f"the library's answer breaks off after {len(findings)} findings")
    return findings


def refused(words: List[str]) -> Optional[Refusal]:
    return Refusal(*map(int, words[1:])) if words[:1] == ["refused"] else None


def read_findings(lines: List[str]) -> Iterator[Finding]:
    for line in lines:
        _, code, row, partner = line.split()
        yield Finding(int(code), row_or_none(row), row_or_none(partner))


def row_or_none(word: str) -> Optional[int]:
    return None if word == "-" else int(word)


def archive(may_build: bool = True) -> Path:
    """The archive of the proved library: one that the caller names, or the one built here. That one is taken as it is,
    older than crates/ or not, and is built where it is missing."""
    named = os.environ.get("DESTERLIN_LIBRARY")
    found = Path(named) if named else ARCHIVE
    if may_build and not named and not os.path.isfile(found):
        build()
    if not os.path.isfile(found):
        raise Trouble(
            f"the proved library is not built: there is no {found}\n"
            f"build it with:  {HOW_TO_BUILD}"
        )
    return found


def build() -> None:
    progress = Progress()
    # On a terminal this takes the place of what stood there before.
    progress.say("the proved library is not built; another tool may be building it")
    with locked("the proved library is not built, and cannot be here"):
        progress.clear()
        if not os.path.isfile(ARCHIVE):
            complain([f"the proved library is not built yet; {THE_BUILD} takes some minutes"])
            run_build(progress)
            progress.clear()


def run_build(progress: Progress) -> None:
    parts = len(parts_of(CRATE.name))
    proved: Set[str] = set()
    said: List[str] = []
    part = ""
    progress.say(f"0 of {parts} parts proved")
    with started_build() as running:
        try:
            for line in running.stdout or []:
                said.append(line)
                begun = BEGUN.match(line)
                if begun:
                    part = begun[1]
                    # Of what it needs, nothing is said that an earlier build has proved.
                    proved |= parts_of(part) - {part}
                elif line.startswith("logic=proved "):
                    proved.add(part)
                    progress.say(f"{len(proved)} of {parts} parts proved: {part}")
        except BaseException:
            running.terminate()
            raise
    if running.returncode != 0:
        told_lines = [line for line in said if "did not build" in line] or said[-LAST_LINES:]
        words = f"the proved library cannot be built: {THE_BUILD} ended with status {running.returncode}\n"
        raise Trouble((words + "".join(told_lines)).rstrip())


def started_build() -> "subprocess.Popen[str]":
    try:
        return subprocess.Popen(
            BUILD, cwd=CRATE, stdin=subprocess.DEVNULL, stdout=subprocess.PIPE, stderr=subprocess.STDOUT,
            encoding="utf-8", errors="replace",
        )
    except OSError as error:
        words = f"the proved library cannot be built without the Rattle kit: {BUILD[0]}: {told(error)}"
        raise Trouble(words) from error


def parts_of(crate: str) -> Set[str]:
    """A crate and all that it needs, as crates.txt has them."""
    needs = dict(re.findall(r"^(\w+)(?: staticlib)?:(.*)$", (ROOT / "crates.txt").read_text(encoding="utf-8"), re.M))
    parts: Set[str] = set()
    left = [crate]
    while left:
        part = left.pop()
        if part in needs and part not in parts:
            parts.add(part)
            left += needs[part].split()
    return parts


def program() -> Path:
    """The compiled call-library. Its name has the sum of what it is made of: who finds it there takes no lock and
    writes nothing, so a checkout serves people who may only read it."""
    compiler = os.environ.get("DESTERLIN_CC") or str(ROOT / "tools" / "cc-x86-64")
    linked = archive()
    command = [compiler, *FLAGS, str(SOURCE), str(linked)]
    made = BUILT / f"call-library-{sum_of(command, [SOURCE, HEADER, linked])}"
    if not os.path.exists(made):
        with locked("call-library.c cannot be compiled"):
            if not os.path.exists(made):
                compile_program(command, made)
    return made


def sum_of(command: List[str], files: List[Path]) -> str:
    total = hashlib.sha256(shlex.join(command).encode())
    for path in files:
        try:
            total.update(hashlib.sha256(path.read_bytes()).digest())
        except OSError as error:
            raise Trouble(f"{path}: cannot be read: {told(error)}") from error
    return total.hexdigest()[:16]


def compile_program(command: List[str], made: Path) -> None:
    with tempfile.TemporaryDirectory(dir=BUILT) as folder:
        whole = [*command, "-o", str(Path(folder) / made.name)]
        ran = subprocess.run(whole, stdout=subprocess.PIPE, stderr=subprocess.STDOUT, check=False)
        if ran.returncode != 0:
            words = ran.stdout.decode("utf-8", "replace").strip()
            if LACKS_A_CALL.search(words):
                words += f"\nthe archive lacks a call of {HEADER.name}, so it is an old one"
                words += f"; build it anew with:  {HOW_TO_BUILD}"
            raise Trouble(f"call-library.c cannot be compiled: {shlex.join(whole)}\n{words}")
        # What cc-x86-64 puts beside the program has a longer name and comes first: a program that is there can run.
        for path in sorted(Path(folder).iterdir(), reverse=True):
            path.rename(BUILT / path.name)


@contextlib.contextmanager
def locked(trouble: str) -> Iterator[None]:
    """Two tools may start at once: one makes what is missing, and the other waits for it."""
    try:
        BUILT.mkdir(parents=True, exist_ok=True)
        with open(BUILT / "lock", "w", encoding="utf-8") as lock:
            fcntl.flock(lock, fcntl.LOCK_EX)
            yield
    except OSError as error:
        raise Trouble(f"{trouble}: {error}") from error
