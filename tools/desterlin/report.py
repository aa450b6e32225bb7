"""What gpkg-check prints: lines for people, or a JSON object for machines."""

from __future__ import annotations

import json
import math
from typing import Dict, Iterator, NamedTuple, Optional

from .check import Judged
from .console import counted, plain
from .listing import Table, Value
from .many import Outcome
from .rules import Finding
from .words import SIDES, Known, finite, lengths, words

# A matrix that is off by less than this share of its extent is no map in the wrong place.
SLIGHT = 1e-9


class Wanted(NamedTuple):
    """How a report is to be."""

    is_json: bool
    most: Optional[int]


def verdict(judged: Judged) -> str:
    """The whole in a few words."""
    found = counted(len(judged.findings), "finding") if judged.findings else "no findings"
    parts = counted(len(judged.not_judged), "part")
    return f"{found}, and {parts} not judged" if judged.not_judged else found


def pieces(judged: Judged, wanted: Wanted) -> Iterator[str]:
    if wanted.is_json:
        return json_pieces(judged, wanted)
    return (plain(line) + "\n" for line in text_lines(judged, wanted))


def pieces_of_trouble(outcome: Outcome, is_json: bool) -> Iterator[str]:
    """The report on a pack that was not judged: for people, the complaints on standard error have all of it."""
    if is_json:
        trouble = "\n".join(outcome.complaints)
        told = {"path": outcome.path, "status": outcome.status, "trouble": trouble, **(outcome.facts or {})}
        yield json.dumps(told) + "\n"


def text_lines(judged: Judged, wanted: Wanted) -> Iterator[str]:
    known = Known(judged.listing, judged.metadata)
    yield f"{judged.path}: {verdict(judged)}"
    code = None
    for finding in judged.findings[:wanted.most]:
        if finding.code != code:
            code = finding.code
            yield ""
            yield f"{code}  {judged.rules[code].words} ({judged.rules[code].requirement})"
        yield f"     {place(judged, finding)}: {words(known, finding)}"
    if left_out(judged, wanted):
        yield ""
        yield f"{counted(left_out(judged, wanted), 'finding')} more, which --most {wanted.most} leaves out here"
    if judged.not_judged:
        yield ""
    for part in judged.not_judged:
        yield f"not judged: {part}"
    yield ""
    yield from summary_lines(judged, known)


def left_out(judged: Judged, wanted: Wanted) -> int:
    return 0 if wanted.most is None else max(0, len(judged.findings) - wanted.most)


def place(judged: Judged, finding: Finding) -> str:
    rule = judged.rules[finding.code]
    if finding.row is None:
        return rule.table.title
    here = f"{rule.table.title} {row_words(judged, rule.table, finding.row)}"
    if finding.partner is None:
        return here
    table = "" if rule.partner_table is rule.table else rule.partner_table.title + " "
    return f"{here}, partner {table}{row_words(judged, rule.partner_table, finding.partner)}"


def row_words(judged: Judged, table: Table, row: int) -> str:
    origin = judged.origins.of(table, row)
    return f"row {row} ({origin})" if origin else f"row {row}"


def summary_lines(judged: Judged, known: Known) -> Iterator[str]:
    yield "judged: " + ", ".join(f"{table.title} {count:,}" for table, count in judged.counts.items())
    tally = judged.tally()
    for code, count in tally.items():
        yield f"{count:9,}  {code}  {judged.rules[code].words}"
    if tally:
        yield f"{len(judged.findings):9,}  in all; {counted(len(judged.rules) - len(tally), 'rule')} without findings"
    of_sides = sum(tally.get(code, 0) for code in SIDES)
    if of_sides:
        those = f"of {counted(of_sides, 'finding')} of 451 and 452"
        yield f"{slight(judged, known):9,}  {those} off by less than one part in 10^9 of the extent"


def slight(judged: Judged, known: Known) -> int:
    """How many findings of 451 and 452 tell of lengths that hardly differ."""
    shares = (
        lengths(known, finding.code, finding.row).share()
        for finding in judged.findings
        if finding.code in SIDES and finding.row is not None
    )
    return sum(share is not None and share < SLIGHT for share in shares)


def json_pieces(judged: Judged, wanted: Wanted) -> Iterator[str]:
    """One object on one line; in pieces, so that a long report need not stand in memory twice."""
    known = Known(judged.listing, judged.metadata)
    head = {
        "path": judged.path,
        "status": judged.status,
        "total": len(judged.findings),
        "not_judged": judged.not_judged,
        "rows": {table.title: count for table, count in judged.counts.items()},
        "summary": [{"code": code, "rule": judged.rules[code].words, "count": n} for code, n in judged.tally().items()],
        "slight": slight(judged, known),
        "left_out": left_out(judged, wanted),
        **trouble_object(judged),
    }
    yield json.dumps(head)[:-1] + ', "findings": ['
    for at, finding in enumerate(judged.findings[:wanted.most]):
        yield ("" if at == 0 else ", ") + json.dumps(finding_object(judged, known, finding))
    yield "]}\n"


def trouble_object(judged: Judged) -> Dict[str, object]:
    if not judged.troubles:
        return {}
    facts = {name: fact for trouble in judged.troubles for name, fact in trouble.facts.items()}
    return {"trouble": "\n".join(map(str, judged.troubles)), **facts}


def finding_object(judged: Judged, known: Known, finding: Finding) -> Dict[str, object]:
    rule = judged.rules[finding.code]
    return {
        "code": finding.code,
        "rule": rule.words,
        "requirement": rule.requirement,
        "table": rule.table.title,
        "row": finding.row,
        "partner": finding.partner,
        "words": words(known, finding),
        **apart(known, finding),
        "found_at": row_object(judged, rule.table, finding.row),
        "partner_at": row_object(judged, rule.partner_table, finding.partner),
    }


def apart(known: Known, finding: Finding) -> Dict[str, object]:
    """Of 451 and 452, how far their lengths are apart; what is no finite number is null."""
    if finding.code not in SIDES or finding.row is None:
        return {}
    compared = lengths(known, finding.code, finding.row)
    gaps = compared.gaps()
    return {
        "off": compared.off(),
        "off_share": compared.share(),
        "steps": compared.steps(),
        "gaps": None if gaps is None else finite(gaps),
    }


def row_object(judged: Judged, table: Table, row: Optional[int]) -> Optional[Dict[str, object]]:
    if row is None:
        return None
    values = judged.values(table, row)
    columns = {field.name: json_value(value) for field, value in zip(table.fields, values)}
    return {"table": table.title, "row": row, "origin": judged.origins.of(table, row), "columns": columns}


def json_value(value: Value) -> object:
    """JSON has no octets and no infinity; both become texts."""
    if isinstance(value, bytes):
        return value.decode("utf-8", "backslashreplace")
    if isinstance(value, float) and not math.isfinite(value):
        return repr(value)
    return value
