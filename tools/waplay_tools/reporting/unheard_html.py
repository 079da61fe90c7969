"""The part of a page on what is not heard."""

import os
import shlex

from waplay_tools.reporting import entries
from waplay_tools.reporting.content import Content
from waplay_tools.reporting.markup import Html, filled, isolated, joined
from waplay_tools.reporting.script_reading import Call
from waplay_tools.reporting.tables import (
    MANY_ROWS,
    MOST_ROWS,
    folded,
    head,
    more_rows,
    numbers,
    ordinals,
    table,
)
from waplay_tools.reporting.text import counted, grouped
from waplay_tools.reporting.unheard import Unheard

_UNHEARD = """<h3>What is not heard</h3>
<p>{told}</p>
<ul class="lines">{causes}</ul>
{nodes}
<p class="aside">Run where the script stands, <code>waprune shorter.json &lt; {script}</code>\
 writes the script without {them}.</p>"""

_CAUSE = "<li>{count} {why}: {calls} {ordinals}.</li>"

_FEW = "<p>Nodes that are never heard: {names}.</p>"


def _causes(unheard: Unheard) -> Html:
    """Why calls are not heard."""
    return joined(
        filled(
            _CAUSE,
            count=grouped(len(calls)),
            why=why[len(calls) > 1],
            calls="call" if len(calls) == 1 else "calls",
            ordinals=ordinals(calls, 8),
        )
        for why, calls in unheard.calls.items()
        if calls
    )


def _row(call: Call) -> Html:
    """The row of a node that is never heard, by the call that created it."""
    return filled(
        "<tr><td>{name}</td><td>{kind}</td>{cells}</tr>",
        name=isolated(call.field("as")),
        kind=entries.NODES[call.op],
        cells=numbers(grouped(call.ordinal)),
    )


def _nodes(nodes: list[Call]) -> Html:
    """The nodes that are never heard: a sentence of few, and a folded table of many."""
    if not nodes:
        return Html()
    if len(nodes) <= MANY_ROWS // 2:
        names = (
            filled("<code>{name}</code>", name=isolated(call.field("as"))) for call in nodes
        )
        return filled(_FEW, names=joined(names, ", "))
    titles = head(("Node", "Kind"), ("Call",))
    rows = [_row(call) for call in nodes[:MOST_ROWS]]
    shown = joined([table("numbers unheard", "Nodes that are never heard", titles, rows),
                    more_rows(len(nodes), "nodes more")])
    return folded(f"Nodes that are never heard ({grouped(len(nodes))})", shown, is_open=False)


def unheard_html(content: Content) -> Html:
    """The part on what is not heard; nothing where each call is heard, or where there is no
    sound."""
    unheard = content.unheard
    if unheard is None or not unheard.count():
        return Html()
    count, of = unheard.count(), len(content.session.script.calls)
    told = f"{grouped(count)} of {counted(of, 'call')} {'is' if count == 1 else 'are'} not heard:"
    them = "it" if count == 1 else "them"
    return filled(
        _UNHEARD,
        told=f"{told} the same samples come without {them}.",
        causes=_causes(unheard),
        nodes=_nodes(unheard.nodes),
        script=shlex.quote(os.path.basename(content.paths[0])),
        them=them,
    )
