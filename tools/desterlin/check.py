"""A pack or a listing, judged: what was found in it, and where its rows came from."""

from __future__ import annotations

import sys
from typing import Callable, Dict, List, NamedTuple, Optional, Sequence, Type, Union

from . import library
from .console import CLEAN, FINDINGS, UNUSABLE, Trouble, counted, told, trouble_with
from .exporter import Exported, export, metadata_octets
from .files import start_of
from .geopackage import MAGIC, Origins
from .listing import LISTING, METADATA, Layout, Listing, MetadataListing, Table, Value
from .rules import ALL_RULES, RULES, Finding, Refusal, Rule
from .texts import NOT_UTF_8, ill_texts
from .words import refusal_words

# In the place of a path.
STANDARD_INPUT = "standard input"

# A part that was not judged; why, the trouble tells.
NO_METADATA_JUDGED = "metadata: it has no listing that is accepted"


class Judged(NamedTuple):
    """A listing with all findings; where there is a metadata listing beside it, with those too. Troubles are with what
    belongs to it, its metadata or its picture: the rest is judged all the same."""

    path: str
    listing: Listing
    findings: List[Finding]
    origins: Origins
    not_judged: List[str]
    metadata: Optional[MetadataListing] = None
    troubles: Sequence[Trouble] = ()

    @property
    def status(self) -> int:
        """What could not be judged is not called clean."""
        if self.troubles:
            return UNUSABLE
        return FINDINGS if self.findings or self.not_judged else CLEAN

    @property
    def rules(self) -> Dict[int, Rule]:
        """Those that were judged."""
        return RULES if self.metadata is None else ALL_RULES

    @property
    def counts(self) -> Dict[Table, int]:
        """How many rows of each table were judged."""
        return {**self.listing.counts, **(self.metadata.counts if self.metadata else {})}

    def values(self, table: Table, row: int) -> List[Value]:
        is_of_metadata = self.metadata is not None and table in self.metadata.counts
        return (self.metadata if is_of_metadata else self.listing).values(table, row)

    def tally(self) -> Dict[int, int]:
        """The number of findings of each code that has any."""
        counts: Dict[int, int] = {}
        for finding in self.findings:
            counts[finding.code] = counts.get(finding.code, 0) + 1
        return counts


def check_pack(path: str, say: Callable[[str], None]) -> Judged:
    exported = export(path, say)
    judged = accepted(path, exported, say)
    if exported.metadata is None:
        return judged
    try:
        metadata = metadata_octets(path, exported.metadata)
    except Trouble as trouble:
        return without_metadata(judged, trouble)
    return with_metadata(judged, exported.octets, path, metadata)


def check_listing(path: str, metadata_path: Optional[str], say: Callable[[str], None]) -> Judged:
    """A listing, and a metadata listing beside it, if one is named."""
    octets = octets_at(path, LISTING)
    metadata = None if metadata_path is None else octets_at(metadata_path, METADATA)
    judged = accepted(name_of(path), Exported(octets, Origins({}), []), say)
    if metadata is None or metadata_path is None:
        return judged
    return with_metadata(judged, octets, name_of(metadata_path), metadata)


def name_of(path: str) -> str:
    return STANDARD_INPUT if path == "-" else path


def octets_at(path: str, layout: Layout) -> bytes:
    """The octets of a listing. One more than the most is enough to have it refused as too long."""
    most = layout.most + 1
    octets = standard_input(most) if path == "-" else start_of(path, most)
    if octets.startswith(MAGIC):
        raise trouble_with(name_of(path), "this is a pack, and no listing of one; it is checked without --listing")
    return octets


def standard_input(most: int) -> bytes:
    if sys.stdin is None:
        raise Trouble("standard input is closed")
    try:
        return sys.stdin.buffer.read(most)
    except OSError as error:
        raise Trouble(f"standard input cannot be read: {told(error)}") from error


def accepted(path: str, exported: Exported, say: Callable[[str], None]) -> Judged:
    say(f"judging {counted(len(exported.octets), 'octet')}")
    answer = library.judged(exported.octets)
    if isinstance(answer, Refusal):
        raise refused(path, "the listing", Listing, exported.octets, exported.origins, answer)
    return Judged(path, Listing(exported.octets), answer, exported.origins, exported.not_judged)


def with_metadata(judged: Judged, octets: bytes, path: str, metadata: bytes) -> Judged:
    """The listing of these octets, which is accepted, judged with a metadata listing that came from this path."""
    try:
        findings = metadata_findings(octets, path, metadata, judged.origins)
    except Trouble as trouble:
        return without_metadata(judged, trouble)
    return judged._replace(findings=judged.findings + findings, metadata=MetadataListing(metadata))


def without_metadata(judged: Judged, trouble: Trouble) -> Judged:
    return judged._replace(not_judged=[*judged.not_judged, NO_METADATA_JUDGED], troubles=[trouble])


def metadata_findings(octets: bytes, path: str, metadata: bytes, origins: Origins) -> List[Finding]:
    """Those of a metadata listing beside a listing that is accepted, so that no refusal is of that one."""
    answer = library.judged_metadata(octets, metadata)
    if isinstance(answer, Refusal):
        raise refused(path, "the metadata listing", MetadataListing, metadata, origins, answer)
    return answer


def refused(
    path: str, what: str, kind: Type[Union[Listing, MetadataListing]], octets: bytes, origins: Origins, refusal: Refusal
) -> Trouble:
    words = f"{what} is refused, {refusal_words(refusal, origins.of)}"
    if refusal.number != NOT_UTF_8:
        return trouble_with(path, words)
    ill = ill_texts(kind(octets))
    return trouble_with(path, words, *ill.lines(origins.of), facts=ill.facts(origins.of))
