"""The exporter: the rows that geopackage reads of a pack, as the listing that the proved writer makes of them, and as a
metadata listing."""

from __future__ import annotations

from typing import Callable, List, NamedTuple, Optional

from . import library
from .console import Trouble, trouble_with
from .geopackage import NO_LISTING, NO_METADATA_LISTING, Origins, PackMetadata, PackRows, rows_of
from .listing import METADATA, TileRows, laid
from .rules import Refusal
from .texts import NOT_UTF_8, ill_texts
from .words import refusal_words

# Where a pack holds what a listing cannot carry, geopackage tells of it, and the writer is not asked. Of texts that are
# no UTF-8 it is the writer who tells.
MISTAKE = f"that is a mistake of the exporter, and not of the pack; {NO_LISTING}"


class Exported(NamedTuple):
    """A listing; the metadata is that of its pack, if it has any and was asked for it."""

    octets: bytes
    origins: Origins
    not_judged: List[str]
    metadata: Optional[PackMetadata] = None


def export(path: str, say: Callable[[str], None], with_metadata: bool = True) -> Exported:
    """The listing of a pack; `say` is told how far it has come."""
    rows = rows_of(path, say, with_metadata)
    say("writing the listing")
    octets = library.written(rows.parts)
    if isinstance(octets, Refusal):
        raise not_written(path, rows, octets)
    return Exported(octets, rows.origins, rows.not_judged, rows.metadata)


def metadata_octets(path: str, metadata: PackMetadata) -> bytes:
    """The metadata listing of a pack."""
    if metadata.hindrances:
        raise trouble_with(path, *metadata.hindrances, NO_METADATA_LISTING)
    return laid(METADATA, metadata.parts)


def not_written(path: str, rows: PackRows, refusal: Refusal) -> Trouble:
    origin = rows.origins.of
    words = f"the listing is not written, {refusal_words(refusal, origin)}"
    if refusal.number != NOT_UTF_8:
        return trouble_with(path, words, MISTAKE)
    ill = ill_texts(TileRows(rows.parts))
    return trouble_with(path, words, *ill.lines(origin), *rows.not_judged, NO_LISTING, facts=ill.facts(origin))
