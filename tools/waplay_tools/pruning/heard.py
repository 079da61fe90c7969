"""Which calls of a session are heard: without all others each sample is the same.

The destination is live, and so is each node that an accepted call ever connected to a live node or
to a parameter of one. Not heard is a call that was refused, that only reads, or that creates or
names a node which is not live; and what stands in the list of such a call or of startRendering.
"""

from collections.abc import Iterable, Iterator

from waplay_tools.expecting.reading import OPERATIONS, Call, NumberedCall

READS = ("readValue", "readState", "readTime")
NOT_NODES = ("createBuffer", "decodeAudioData")  # what makes something that is no node
NAMING = ("from", "to", "node")  # the fields that name nodes
DESTINATION = 0


def every(calls: list[NumberedCall]) -> Iterator[NumberedCall]:
    """The calls of a list and those that they hold, in document order."""
    for it in calls:
        yield it
        yield from every(it[2])


def answers_of(lines: Iterable[str]) -> dict[int, bool]:
    """Of each call that was run whether it was accepted, in the order in which they were run. The
    first line with the ordinal of a call is its answer."""
    answers: dict[int, bool] = {}
    for line in lines:
        ordinal, answer, *_ = line.split()
        if ordinal.isdigit():
            answers.setdefault(int(ordinal), answer not in ("throw", "rejected"))
    return answers


class Hearing:
    """What is heard of the calls of a session, by its lines. A node is told by the ordinal of the
    call that created it, and the destination by 0."""

    def __init__(self, calls: list[NumberedCall], lines: Iterable[str]) -> None:
        self.calls = calls
        self.by_ordinal = {ordinal: call for ordinal, call, _ in every(calls)}
        self.answers = answers_of(lines)
        self.nodes: list[int] = []  # in the order in which they were created
        self._names: dict[str, int | None] = {"destination": DESTINATION}  # None: of a buffer
        self._touched: dict[int, list[int]] = {}  # of an accepted call what it creates or names
        self._heard_by: dict[int, list[int]] = {}  # of a node those that were connected to it
        for ordinal, is_accepted in self.answers.items():
            if is_accepted:
                self._follow(ordinal, self.by_ordinal[ordinal])
        self.live = self._reaching(DESTINATION)

    def _follow(self, ordinal: int, call: Call) -> None:
        """Notes the nodes of an accepted call, and the connection that it makes."""
        op, fields = call["op"], [field for field, *_ in OPERATIONS[call["op"]]]
        if "as" in fields:
            is_node = op not in NOT_NODES
            self._names[call["as"]] = ordinal if is_node else None
            self._touched[ordinal] = [ordinal] if is_node else []
            self.nodes += self._touched[ordinal]
            return
        names = [call[field] for field in fields if field in NAMING and field in call]
        found = [self._names[name] for name in names if name is not None]
        self._touched[ordinal] = [node for node in found if node is not None]
        if op in ("connect", "connectParam"):
            source, target = self._touched[ordinal]
            self._heard_by.setdefault(target, []).append(source)

    def _reaching(self, node: int) -> set[int]:
        """A node, and all from which connections that were ever made lead to it."""
        reached, left = {node}, [node]
        while left:
            for source in self._heard_by.get(left.pop(), []):
                if source not in reached:
                    reached.add(source)
                    left.append(source)
        return reached

    def silent(self) -> list[int]:
        """The nodes that are never heard, in the order of their creation."""
        return [it for it in self.nodes if it not in self.live]

    def is_heard(self, ordinal: int) -> bool:
        """Whether a call is heard by itself, whatever list it stands in."""
        is_read = self.by_ordinal[ordinal]["op"] in READS
        return ordinal in self._touched and not is_read and self.live.issuperset(
            self._touched[ordinal]
        )

    def kept(self, calls: list[NumberedCall] | None = None) -> list[NumberedCall]:
        """The calls of a list that are heard, each with those of its own list; at first those of
        the main list. They have the ordinals that they had."""
        return [
            (ordinal, call, [] if call["op"] == "startRendering" else self.kept(held))
            for ordinal, call, held in (self.calls if calls is None else calls)
            if self.is_heard(ordinal)
        ]

    def kept_ordinals(self) -> set[int]:
        """The ordinals of all calls that are kept."""
        return {ordinal for ordinal, *_ in every(self.kept())}
