"""Where things stand in the repository, and what its commands are called."""

import re
from pathlib import Path

TOP = Path(__file__).resolve().parents[2]
EXAMPLES = TOP / "examples"
CASES = TOP / "tests" / "cases"
# The programs by their names, as they come with a checkout. tools/building.sh names them too.
PROGRAMS = {
    name: TOP / "bin" / f"{name}-x86_64-linux" for name in ("waplay", "waexplain", "waprune")
}
SHIPPED = PROGRAMS["waplay"]
# In an installed package there is no repository: the program and the recorder lie here.
PACKAGED = Path(__file__).resolve().parent / "packaged"


def newest_of(program: str, top: Path = TOP) -> Path | None:
    """The program of this name that a checkout has, the newer one of what was built there and what
    comes with it; or that of an installed package."""
    built = top / "crates" / program / "out" / program
    places = [top / "bin" / f"{program}-x86_64-linux", built, PACKAGED / program]
    there = [path for path in places if path.is_file()]
    return max(there, key=lambda path: path.stat().st_mtime, default=None)


def as_called_here(text: str) -> str:
    """A text with the commands as they are called here: an installed package has waplay-piece for
    tools/piece."""
    if not PACKAGED.is_dir():
        return text
    return re.sub(r"\btools/(?=(piece|record|report|compare|archive)\b)", "waplay-", text)
