"""Files that are read, which are ordinary ones, and files that are written, which appear whole or not at all."""

from __future__ import annotations

import contextlib
import os
import stat
import tempfile

from .console import told, trouble_with


def start_of(path: str, most: int) -> bytes:
    """The first octets of a file. A pipe or a device is not opened: it might never begin, or never end."""
    try:
        mode = os.stat(path).st_mode
        if not stat.S_ISREG(mode) and not stat.S_ISDIR(mode):
            raise trouble_with(path, "this is no ordinary file, so it is not read")
        with open(path, "rb") as file:
            octets = file.read(most)
    except OSError as error:
        raise trouble_with(path, f"cannot be read: {told(error)}") from error
    if not octets:
        raise trouble_with(path, "this file is empty")
    return octets


def write_whole(path: str, octets: bytes, source: str) -> None:
    """Writes a file by way of a temporary one beside it, so that a failure leaves what was there before. The source is
    what the octets were made from, and is never replaced."""
    target = os.path.realpath(path)
    if os.path.lexists(target) and not stat.S_ISREG(os.stat(target).st_mode):
        raise trouble_with(path, "this is no ordinary file, so it is not replaced")
    if os.path.exists(target) and os.path.exists(source) and os.path.samefile(target, source):
        raise trouble_with(path, "this is the file that was read; it would be lost")
    temporary = None
    try:
        with tempfile.NamedTemporaryFile(dir=os.path.dirname(target), prefix=".desterlin-", delete=False) as file:
            temporary = file.name
            file.write(octets)
        os.chmod(temporary, 0o666 & ~current_umask())
        os.replace(temporary, target)
        temporary = None
    except OSError as error:
        raise trouble_with(path, f"cannot be written: {told(error)}") from error
    finally:
        if temporary is not None:
            with contextlib.suppress(OSError):
                os.unlink(temporary)


def current_umask() -> int:
    mask = os.umask(0)
    os.umask(mask)
    return mask
