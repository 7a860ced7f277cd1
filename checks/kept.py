"""Stores verdicts on this machine, one file for each checksum of all that a verdict depends on. With ANEW=1 no stored
one is used."""
import hashlib
import json
import os
import pathlib
import tempfile
import time

FOLDER = pathlib.Path(os.environ.get("XDG_CACHE_HOME") or "~/.cache").expanduser() / "porchsorrel/verdicts"
# For how many days it is kept after its last use.
DAYS = 60


def key_of(*parts):
    """The sum of all that something stands on."""
    return hashlib.sha256(repr(parts).encode()).hexdigest()


def read(key):
    """The stored value, or None; a file that isn't whole has none."""
    try:
        found = json.loads((FOLDER / key).read_text(encoding="utf-8"))
        os.utime(FOLDER / key)
        return found["found"] if found["key"] == key and not os.environ.get("ANEW") else None
    except (OSError, ValueError, KeyError, TypeError):
        return None


def write(key, found):
    """Keep something, if there is space for it."""
    try:
        FOLDER.mkdir(parents=True, exist_ok=True)
        with tempfile.NamedTemporaryFile("w", dir=FOLDER, delete=False, encoding="utf-8") as it:
            json.dump({"key": key, "found": found}, it)
        os.replace(it.name, FOLDER / key)
    except OSError:
        pass


def drop_old():
    """Remove files that were not used for long."""
    for it in FOLDER.glob("*"):
        if it.stat().st_mtime < time.time() - DAYS * 86400:
            it.unlink(missing_ok=True)
