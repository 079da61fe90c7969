"""The page of two runs beside each other."""

from collections.abc import Iterator

from waplay_tools.reporting import call_changes, page, sound_html
from waplay_tools.reporting.call_changes import Change
from waplay_tools.reporting.content import Content, Room
from waplay_tools.reporting.judging import Finding
from waplay_tools.reporting.markup import Html, filled, isolated, joined
from waplay_tools.reporting.runs import Answer, Runs
from waplay_tools.reporting.tables import MOST_ROWS, folded, head, more_rows, plain, table
from waplay_tools.reporting.text import grouped, visible

AROUND = 3  # calls that are alike and stand around those that are not
MOST_CHANGES = 80  # rows of the table of calls; then all changes stand in a text as well

_ROW = """<tr class="{kind}"><th scope="row"><span class="sign" aria-hidden="true">{sign}</span>\
 {word}</th><td class="number">{old}</td><td class="number">{new}</td>\
<td><code>{text}</code></td></tr>"""

_WORDS = {"same": "alike"}


def _seen(changes: list[Change]) -> Iterator[Change | int]:
    """The changes that are shown, and in the place of those between them how many they are."""
    near = [False] * len(changes)
    for at, change in enumerate(changes):
        if change.kind != "same":
            near[max(0, at - AROUND) : at + AROUND + 1] = [True] * len(
                near[max(0, at - AROUND) : at + AROUND + 1]
            )
    left = 0
    for change, is_near in zip(changes, near):
        if not is_near:
            left += 1
            continue
        if left:
            yield left
        left = 0
        yield change
    if left:
        yield left


def _row(it: Change | int) -> Html:
    """A row of the table of calls."""
    if isinstance(it, int):
        return filled('<tr class="same"><td colspan="4">{count} alike</td></tr>', count=grouped(it))
    return filled(
        _ROW,
        kind=it.kind,
        sign=call_changes.SIGNS[it.kind],
        word=_WORDS.get(it.kind, it.kind),
        old=it.old.ordinal if it.old else "",
        new=it.new.ordinal if it.new else "",
        text=it.text(),
    )


def _calls_html(runs: Runs) -> Html:
    """The part on the calls."""
    if all(it.kind == "same" for it in runs.changes):
        return filled("<h3>Calls</h3><p>All {count} are alike.</p>",
                      count=grouped(len(runs.changes)))
    rows = list(_seen(runs.changes))
    titles = head(("Change",), ("Old", "New"), ("Call",))
    shown = [table("changes", "Calls of both runs", titles, map(_row, rows[:MOST_CHANGES]))]
    lines = (f"{call_changes.SIGNS[it.kind]} {it.old.ordinal if it.old else '':>6}"
             f" {it.new.ordinal if it.new else '':>6}  {it.text()}"
             for it in runs.changes if it.kind != "same")
    after = folded("All changes as text", plain("All changes", lines), is_open=False)
    return Html("<h3>Calls</h3>" + joined(shown) + (after if len(rows) > MOST_CHANGES else ""))


_ANSWER = """<tr><td class="number">{ordinal}</td><td><code>{old}</code></td>\
<td><code>{new}</code></td><td><code>{text}</code></td></tr>"""


def _answer(it: Answer) -> Html:
    """A row of the table of answers."""
    call = (it.change.new or it.change.old) if it.change else None
    return filled(_ANSWER, ordinal=call.ordinal if call else "", old=it.old, new=it.new,
                  text=it.change.text() if it.change else "")


def _answers_html(runs: Runs) -> Html:
    """The part on the answers."""
    if not runs.answers:
        return Html("<h3>Answers</h3><p>All that can be compared are alike.</p>")
    titles = head((), ("Call",), ("Old answer", "New answer", "What is called"))
    rows = map(_answer, runs.answers[:MOST_ROWS])
    shown = table("changes", "Answers that differ", titles, rows)
    return Html("<h3>Answers</h3>" + shown + more_rows(len(runs.answers)))


def _sounds_html(runs: Runs, room: Room) -> Html:
    """The part on the sounds: the new one, with the old one drawn over it."""
    if not (runs.old and runs.new and runs.old.sound and runs.new.sound):
        return Html()
    both = Content(
        runs.new.session,
        sound=sound_html.named(runs.new.sound, "the new run"),
        other=sound_html.named(runs.old.sound, "the old run"),
        differences=runs.sounds,
    )
    return sound_html.sound_html(both, room)


_RUNS = """<section class="context" id="part-{number}" aria-labelledby="part-{number}-title">
<h2 id="part-{number}-title">Context {number}</h2>
{body}
</section>"""


def _runs_html(runs: Runs, room: Room) -> Html:
    """The section of a context."""
    if runs.old is None or runs.new is None:
        which = "new" if runs.old is None else "old"
        body = filled("<p>Only the {which} run has it.</p>", which=which)
    else:
        body = joined([_calls_html(runs), _answers_html(runs), _sounds_html(runs, room)], "\n")
    return filled(_RUNS, number=runs.number, body=body)


def findings_of(every: list[Runs]) -> list[Finding]:
    """What is said at the top: each check, those that fail first."""
    checks = [check for runs in every for check in runs.checks()]
    found = [Finding("bad" if it.wrong else "good", it.wrong or f"{it.name}: the same")
             for it in checks]
    return sorted(found, key=lambda it: it.grade == "good")


def page_of_runs(every: list[Runs], names: tuple[str, str], room: Room) -> Html:
    """The page of the contexts of two runs, which have these names."""
    facts: page.Facts = [("Old", isolated(names[0])), ("New", isolated(names[1]))]
    top = Html(page.findings_html(findings_of(every)) + page.facts_html(facts))
    title = f"{visible(names[0])} and {visible(names[1])}"
    return page.framed(title, top, joined((_runs_html(it, room) for it in every), "\n"))
