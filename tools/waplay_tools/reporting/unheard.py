"""Which calls of a session are not heard, and why: without them the same samples come."""

from waplay_tools.expecting.reading import numbered
from waplay_tools.pruning.heard import READS, Hearing
from waplay_tools.reporting.following import Session
from waplay_tools.reporting.script_reading import Call

# Why a call is not heard, in words behind a number: for one call, and for several.
REFUSED = ("was refused", "were refused")
NEVER_RUN = ("was never run", "were never run")
LATE = ("came after the last sample", "came after the last sample")
READ = ("only reads", "only read")
LEADS_NOWHERE = ("is of nodes that are never heard", "are of nodes that are never heard")
CAUSES = (REFUSED, NEVER_RUN, LATE, READ, LEADS_NOWHERE)

Cause = tuple[str, str]


class Unheard:
    """What is not heard of a session that completed: calls by their causes, each by its ordinal,
    and the calls that created the nodes from which no connection ever led to the destination."""

    def __init__(self, session: Session) -> None:
        self._session = session
        calls = numbered(session.script.value["calls"], 1)[0]
        self._hearing = Hearing(calls, (line.text for line in session.lines))
        kept = self._hearing.kept_ordinals()
        self.calls: dict[Cause, list[int]] = {cause: [] for cause in CAUSES}
        for call in session.script.calls:
            if call.ordinal not in kept:
                self.calls[self._cause(call)].append(call.ordinal)
        self.nodes = [session.script.by_ordinal[it] for it in self._hearing.silent()]

    def _cause(self, call: Call) -> Cause:
        """Why a call is not heard."""
        is_accepted = self._hearing.answers.get(call.ordinal)
        if is_accepted is None:
            return NEVER_RUN
        if not is_accepted:
            return REFUSED
        if call.holder and call.holder == self._session.rendering:
            return LATE
        return READ if call.op in READS else LEADS_NOWHERE

    def count(self) -> int:
        """How many calls are not heard."""
        return sum(map(len, self.calls.values()))
