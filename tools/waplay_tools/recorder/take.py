"""The folder of a take: what one run of the recorder writes."""

import re
from pathlib import Path

# The names of the files of a take. A replay by hand is out.wav, as the documents have it.
OURS = re.compile(r"take\.json|\d+\.json|\d+-b\d+\.wav|\d+\.browser\.wav|\d+\.wav|\d+\.txt"
                  r"|\d+\.report\.txt|out\.wav|report\.html|\d+\.html|index\.html|compared\.html")


class NoTake(Exception):
    """Why a folder cannot get a take, in one sentence."""


def prepare(folder: Path) -> None:
    """Makes the folder, or empties it of an earlier take. A folder with anything else is left as it
    is, and refused."""
    if not folder.is_dir():
        folder.mkdir(parents=True, exist_ok=True)
        return
    names = sorted(path.name for path in folder.iterdir())
    others = [name for name in names if not OURS.fullmatch(name) or (folder / name).is_dir()]
    if others:
        more = f" and {len(others) - 1} more" if len(others) > 1 else ""
        raise NoTake(f"{folder} has files that are of no take, as {others[0]}{more}; "
                     "name another folder.")
    for name in names:
        (folder / name).unlink()
