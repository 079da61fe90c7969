"""The part of a page on refused calls, by their causes."""

from waplay_tools.reporting import refusals, rules
from waplay_tools.reporting.calls_html import call_html
from waplay_tools.reporting.following import Session
from waplay_tools.reporting.markup import Html, filled, joined, sentence
from waplay_tools.reporting.refusals import Cause
from waplay_tools.reporting.tables import folded, ordinals
from waplay_tools.reporting.text import counted, grouped

MOST_CALLS = 40  # that are shown of a cause

_CAUSE = """<li><p><span class="sign" aria-hidden="true">\u2715</span> <b>{op}</b>:\
 <code>{answer}</code>, {calls}</p>
<p class="rule">{rule}</p>{following}{shown}</li>"""


def _cause(cause: Cause, session: Session) -> Html:
    """A cause with the calls that it explains."""
    call = cause.row.call
    after = ""
    if cause.following:
        count = counted(len(cause.following), "call has", "calls have")
        after = f"So {count} no object: {ordinals(cause.following)}."
    told = "call" if len(cause.calls) == 1 else f"{grouped(len(cause.calls))} calls:"
    return filled(
        _CAUSE,
        op=str(call.op) if call else "",
        answer=cause.answer(),
        calls=f"{told} {ordinals(cause.calls)}",
        rule=sentence(rules.meaning(cause.row, session.script)),
        following=filled('<p class="rule">{after}</p>' if after else "", after=after),
        shown=_calls(cause, session),
    )


def _calls(cause: Cause, session: Session) -> Html:
    """The calls of a cause, folded."""
    all_of = [*cause.calls, *cause.following]
    lines = [
        filled(
            '<li value="{ordinal}">{call}</li>',
            ordinal=ordinal,
            call=call_html(session.script.by_ordinal[ordinal]),
        )
        for ordinal in all_of[:MOST_CALLS]
    ]
    more = counted(len(all_of) - MOST_CALLS, "more call") if len(all_of) > MOST_CALLS else ""
    shown = filled(
        '<ol class="calls">{lines}</ol>{more}',
        lines=joined(lines),
        more=filled('<p class="aside">and {it}</p>' if more else "", it=more),
    )
    return folded("The calls", shown, is_open=False)


_REFUSALS = """<h3>Refusals, by their causes</h3>
<ul class="causes">{causes}</ul>"""


def refusals_html(session: Session) -> Html:
    """The part on refusals; nothing where there are none."""
    causes = refusals.causes_of(session)
    if not causes:
        return Html()
    return filled(_REFUSALS, causes=joined(_cause(cause, session) for cause in causes[:60]))
