"""What people meet: trouble, texts shown safely, a progress line, and a tool's start and end."""

from __future__ import annotations

import argparse
import contextlib
import io
import os
import sys
import traceback
from typing import Callable, Dict, Iterable, Iterator, NoReturn, Optional, TextIO

# Exit statuses; the last two are what a shell gives for a program that these signals ended.
CLEAN, FINDINGS, UNUSABLE = 0, 1, 2
INTERRUPTED, BROKEN_PIPE = 130, 141

LONGEST_SHOWN = 80

# Of a text that is no UTF-8, so many octets are shown on each side of the one at fault.
SHOWN_AROUND = 24

# The tool that speaks: what is said on standard error begins with its name.
speaker = "desterlin"

# Where it is set, an error of a tool itself is shown with the place in the code.
TRACEBACK = "DESTERLIN_TRACEBACK"


class Trouble(Exception):
    """Something that a person has to put right; its words, a line or several, are the whole message. The facts, where
    there are any, are the same for machines."""

    def __init__(self, words: str, facts: Optional[Dict[str, object]] = None) -> None:
        super().__init__(words)
        self.facts = facts or {}


class SeenEnough(Exception):
    """Whoever reads standard output has closed it, as head does."""


def trouble_with(path: str, *lines: str, facts: Optional[Dict[str, object]] = None) -> Trouble:
    return Trouble("\n".join(f"{plain(path)}: {line}" for line in lines), facts)


def shown(text: Optional[bytes]) -> str:
    """A text of a pack in quotes. A pack can hold anything, so nothing of it may reach a terminal as a command."""
    if text is None:
        return "NULL"
    letters = text.decode("utf-8", "surrogateescape")
    more = f"… ({len(text)} octets)" if len(letters) > LONGEST_SHOWN else ""
    start = letters[:LONGEST_SHOWN]
    if '"' in start or "\\" in start:
        start = start.replace("\\", "\\\\").replace('"', '\\"')
    return f'"{plain(start)}"{more}'


def shown_around(text: bytes, at: int) -> str:
    """A text that is no UTF-8, or what stands around an octet of it: what is not ASCII is told octet by octet."""
    start, end = max(0, at - SHOWN_AROUND), at + 1 + SHOWN_AROUND
    before, after = "…" if start > 0 else "", "…" if end < len(text) else ""
    length = f" ({counted(len(text), 'octet')})" if before or after else ""
    return f'{before}"{"".join(map(octet_shown, text[start:end]))}"{after}{length}'


def octet_shown(octet: int) -> str:
    letter = chr(octet)
    if letter in '"\\':
        return "\\" + letter
    return letter if " " <= letter <= "~" else f"\\x{octet:02x}"


def plain(line: str) -> str:
    """A line without what a terminal would take for a command, as a pack's path may have it."""
    # Nearly every line is printable, and in a long report they are many.
    return line if line.isprintable() else "".join(map(printable, line))


def printable(letter: str) -> str:
    if letter.isprintable():
        return letter
    number = ord(letter)
    if 0xDC80 <= number <= 0xDCFF:
        # So Python carries an octet that is no UTF-8.
        return f"\\x{number - 0xDC00:02x}"
    if 0x80 <= number <= 0xFF:
        # A backslash, x and two digits tell of an octet.
        return f"\\u{number:04x}"
    return letter.encode("unicode_escape").decode("ascii")


def counted(number: int, one: str, many: Optional[str] = None) -> str:
    """'1 tile', '2,000 tiles'."""
    return f"{number:,} {one if number == 1 else many or one + 's'}"


def told(error: OSError) -> str:
    """The system's words for an error, without its number and path."""
    return error.strerror or str(error)


def unforeseen(error: BaseException) -> str:
    """An error that nobody thought of: a mistake in the tools, or a machine without memory."""
    if os.environ.get(TRACEBACK):
        traceback.print_exception(type(error), error, error.__traceback__)
    words = str(error).partition("\n")[0]
    return f"an error that was not foreseen: {type(error).__name__}: {words} ({TRACEBACK}=1 shows where)"


class Parser(argparse.ArgumentParser):
    """The arguments of a tool, with its status and its words for a call that is wrong."""

    def __init__(self, tool: str, description: Optional[str], epilog: str) -> None:
        form = argparse.RawDescriptionHelpFormatter
        super().__init__(prog=tool, description=description, epilog=epilog, formatter_class=form)

    def error(self, message: str) -> NoReturn:
        super().error(plain(message))


class Progress:
    """One line on a terminal that says what goes on; nothing at all anywhere else."""

    def __init__(self, stream: Optional[TextIO] = None) -> None:
        self.stream = stream or sys.stderr
        self.is_on = self.stream.isatty()
        self.length = 0

    def say(self, words: str) -> None:
        if self.is_on:
            line = plain(words)
            self.write("\r" + line.ljust(self.length))
            self.length = len(line)

    def clear(self) -> None:
        self.say("")
        self.write("\r")

    def write(self, letters: str) -> None:
        if self.is_on:
            with contextlib.suppress(OSError):
                self.stream.write(letters)
                self.stream.flush()


def run(tool: str, act: Callable[[Progress], int]) -> int:
    """Has a tool act, and gives its exit status: 0 and 1 are what it says itself, and nothing else ends so."""
    global speaker
    speaker = tool
    if sys.stderr is None:
        # print would send to standard output what is meant for standard error.
        sys.stderr = open(os.devnull, "w", encoding="utf-8")
    progress = Progress()
    try:
        with standard_output():
            # One that is closed is told before any work is done.
            pass
        status = status_of(act, progress)
        with standard_output():
            return status
    except SeenEnough:
        progress.clear()
        return BROKEN_PIPE
    except KeyboardInterrupt:
        progress.clear()
        return INTERRUPTED
    except Exception as error:
        progress.clear()
        words = str(error) if isinstance(error, Trouble) else unforeseen(error)
        complain(words.splitlines())
        return UNUSABLE


def status_of(act: Callable[[Progress], int], progress: Progress) -> int:
    try:
        return act(progress)
    except SystemExit as leaving:
        # --help, or a call that is wrong: argparse has said all.
        return leaving.code if isinstance(leaving.code, int) else UNUSABLE


@contextlib.contextmanager
def standard_output() -> Iterator[None]:
    """For whatever is printed: it is written when this ends, or what hinders that is told as Trouble."""
    if sys.stdout is None:
        raise Trouble("standard output is closed")
    if isinstance(sys.stdout, io.TextIOWrapper):
        sys.stdout.reconfigure(errors="backslashreplace")
    try:
        yield
        sys.stdout.flush()
    except OSError as error:
        silence(sys.stdout)
        if isinstance(error, BrokenPipeError):
            raise SeenEnough from error
        raise Trouble(f"standard output cannot be written: {told(error)}") from error


def silence(stream: TextIO) -> None:
    """Lets a stream that fails lead nowhere, since Python would write to it once more at the end, and complain."""
    with contextlib.suppress(OSError):
        os.dup2(os.open(os.devnull, os.O_WRONLY), stream.fileno())


def complain(lines: Iterable[str]) -> None:
    """Lines for standard error, each with the tool's name; where that fails, the exit status has to do."""
    if sys.stderr is None:
        return
    try:
        for line in lines:
            print(f"{speaker}: {plain(line)}", file=sys.stderr)
        sys.stderr.flush()
    except OSError:
        silence(sys.stderr)


def print_octets(octets: bytes) -> None:
    """Octets, as they are, on standard output."""
    with standard_output():
        sys.stdout.flush()
        rest = memoryview(octets)
        while rest:
            # Where Python is told not to buffer, a part may be written and no more said of it.
            rest = rest[sys.stdout.buffer.write(rest):]


def ended(kind: type, error: BaseException, where: object) -> None:
    """In the place of sys.excepthook: what goes wrong before a tool acts, as where Python has no SQLite."""
    if kind is KeyboardInterrupt:
        sys.exit(INTERRUPTED)
    complain([unforeseen(error)])
    sys.exit(UNUSABLE)
