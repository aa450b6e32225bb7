"""The texts of a listing that are no UTF-8, for which the library refuses it, in words, with the octets at fault."""

from __future__ import annotations

import codecs
from bisect import bisect_left
from typing import Callable, Dict, List, NamedTuple, Optional, Tuple

from .console import counted, shown_around
from .geopackage import MOST_COMPLAINTS
from .listing import Rows, Table

# The reason for which a listing that has such texts is refused.
NOT_UTF_8 = 13

Origin = Callable[[Table, int], Optional[str]]


class IllText(NamedTuple):
    """A text that is no UTF-8: the first field that has it, and how many have it."""

    table: Table
    row: int
    column: str
    octets: bytes
    fields: int

    @property
    def fault(self) -> int:
        """The first octet, counted from 0, that belongs to no character."""
        try:
            self.octets.decode("utf-8")
        except UnicodeDecodeError as error:
            return error.start
        raise AssertionError("this text is UTF-8")

    def words(self, origin: Origin) -> str:
        came_from = origin(self.table, self.row)
        row = f"row {self.row} ({came_from})" if came_from else f"row {self.row}"
        text = shown_around(self.octets, self.fault)
        fault = f"octet {self.fault}, which is {self.octets[self.fault]:02x}, belongs to no character of UTF-8"
        others = f"; {counted(self.fields, 'field')} have this text" if self.fields > 1 else ""
        return f"{self.table.title} {row}, {self.column}: {text}: {fault}{others}"

    def facts(self, origin: Origin) -> Dict[str, object]:
        """The same for machines."""
        return {
            "table": self.table.title,
            "row": self.row,
            "origin": origin(self.table, self.row),
            "column": self.column,
            "text": shown_around(self.octets, self.fault),
            "length": len(self.octets),
            "octet": self.fault,
            "value": self.octets[self.fault],
            "fields": self.fields,
        }


class IllTexts(NamedTuple):
    """The first of the texts that are no UTF-8, in the order of the fields that have them, and the number of all. Two
    are the same where they have the same octets of table 7."""

    told: List[IllText]
    total: int

    def lines(self, origin: Origin) -> List[str]:
        lines = [text.words(origin) for text in self.told]
        more = self.total - len(self.told)
        if more:
            lines.append(f"and {counted(more, 'more text')} that {'is' if more == 1 else 'are'} no UTF-8")
        return lines

    def facts(self, origin: Origin) -> Dict[str, object]:
        return {"ill_total": self.total, "ill_texts": [text.facts(origin) for text in self.told]}


def ill_texts(rows: Rows) -> IllTexts:
    characters = Characters(rows.names)
    firsts: Dict[Tuple[int, int], Tuple[Table, int, str]] = {}
    fields: Dict[Tuple[int, int], int] = {}
    for table, row, column, start, end in rows.texts():
        span = start, end
        if span in firsts or not characters.is_text(start, end):
            firsts.setdefault(span, (table, row, column))
            fields[span] = fields.get(span, 0) + 1
    told = list(firsts)[:MOST_COMPLAINTS]
    return IllTexts([IllText(*firsts[span], rows.names[slice(*span)], fields[span]) for span in told], len(firsts))


class Characters:
    """The name octets as UTF-8. A listing may have a quarter of a million texts of a megabyte each, so they are not
    read text by text: one is well-formed where all its octets belong to characters, and neither end parts one."""

    def __init__(self, names: bytes) -> None:
        self.names = names
        self.strays = strays(names)

    def is_text(self, start: int, end: int) -> bool:
        is_whole = not self.has_stray(start, end) and not self.is_parted(start) and not self.is_parted(end)
        return start == end or is_whole

    def has_stray(self, start: int, end: int) -> bool:
        at = bisect_left(self.strays, start)
        return at < len(self.strays) and self.strays[at] < end

    def is_parted(self, at: int) -> bool:
        """Whether a character begins before this place and goes on behind it."""
        is_continuation = at < len(self.names) and 0x80 <= self.names[at] <= 0xBF
        return is_continuation and not self.has_stray(at, at + 1)


def strays(names: bytes) -> List[int]:
    """The places of the octets that belong to no character, ascending."""
    found: List[int] = []

    def note(error: UnicodeError) -> Tuple[str, int]:
        assert isinstance(error, UnicodeDecodeError)
        found.extend(range(error.start, error.end))
        return "", error.end

    codecs.register_error("desterlin-strays", note)
    names.decode("utf-8", "desterlin-strays")
    return found
