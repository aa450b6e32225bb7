"""Several packs in one call: which those are, and what becomes of each."""

from __future__ import annotations

import contextlib
import os
from typing import Dict, List, NamedTuple, Optional, Sequence, Tuple

from .console import Trouble, told, trouble_with


class Outcome(NamedTuple):
    """What became of one pack: the exit status that it gives, a line for the closing summary, complaints, and the facts
    of its trouble."""

    path: str
    status: int
    line: str
    complaints: List[str]
    facts: Optional[Dict[str, object]] = None


def packs_in(folder: str) -> Tuple[List[str], List[str]]:
    """The packs of a folder, by name, and the folders in it, which are not entered."""
    try:
        paths = [os.path.join(folder, name) for name in sorted(os.listdir(folder))]
    except OSError as error:
        raise trouble_with(folder, f"cannot be read: {told(error)}") from error
    folders = [path for path in paths if os.path.isdir(path)]
    packs = [path for path in paths if path.lower().endswith(".gpkg") and not os.path.isdir(path)]
    if not packs:
        raise trouble_with(folder, "there is no pack (*.gpkg) in this folder")
    return packs, folders


def all_packs(given: Sequence[str]) -> Tuple[List[str], List[str]]:
    """The packs that a call names, by themselves or by their folder, and the folders that are not entered. A folder
    without a pack stands for itself: it has its trouble when its turn comes."""
    packs: List[str] = []
    passed_over: List[str] = []
    for path in given:
        found: Tuple[List[str], List[str]] = [path], []
        with contextlib.suppress(Trouble):
            found = packs_in(path) if os.path.isdir(path) else found
        packs += found[0]
        passed_over += found[1]
    return packs, passed_over
