"""Examples as cases: a script with its transcript beside it, and the assets of its folder."""

import json
from pathlib import Path

from waplay_tools.cases.case import Case
from waplay_tools.places import TOP


def example_of(path: Path) -> Case:
    """The case of examples/NAME.json: the transcript is NAME.txt, the file the second
    calculation's."""
    text = path.read_text(encoding="utf-8")
    lines = path.with_suffix(".txt").read_text(encoding="utf-8").splitlines()
    folder = path.parent.relative_to(TOP)
    assets = {
        asset: {"copy": str(folder / asset)}
        for asset in _paths_in(json.loads(text)["calls"])
        if (path.parent / asset).is_file()
    }
    is_completed = lines[-1] == "end completed"
    return Case(
        shows=path.stem,
        source="tools/expected.py",
        input=text,
        files=assets,
        status=0 if is_completed else 3,
        transcript=lines,
        is_example=is_completed,
        path=path,
    )


def _paths_in(calls: list[dict]) -> list[str]:
    paths = []
    for call in calls:
        if call["op"] == "decodeAudioData":
            paths.append(call["path"])
        paths += _paths_in(call.get("then", []))
    return paths
