"""The part of a page that says why a sample is what it is."""

import itertools
import os
import shlex

from waplay_tools.expecting.numbers import sample_of
from waplay_tools.explaining.deriving import MOST_BYTES, MOST_KEYS
from waplay_tools.explaining.facts import Count
from waplay_tools.reporting.calls_html import SIGNS
from waplay_tools.reporting.content import Content, File
from waplay_tools.reporting.explained import Explained, Step
from waplay_tools.reporting.facts_html import Telling, value_text
from waplay_tools.reporting.markup import Html, filled, joined
from waplay_tools.reporting.tables import MOST_ROWS, folded, frame_html, more_rows, plain
from waplay_tools.reporting.text import counted, grouped

OPEN = 3  # steps under one another that are open at first
INDENTED = 12  # that are each further in than the one above
MOST_LINES = 1000  # of the text

_EXPLAINED = """<h3>Why a sample is what it is</h3>
{told}"""

_TOO_LONG = """<p>To frame {frame} of channel {channel} lead more than {most}, which are too\
 many.</p>"""

_TOLD = """<p>Frame {frame} of channel {channel} is {value}. {there}{facts} lead to it, each of\
 which follows from those under it. {by}</p>
{wrong}<ul class="why">{steps}</ul>
{counts}
{text}"""

_BY_PROGRAM = "waexplain derived them, and the second calculation finds each of them right."
_BY_SECOND = "The second calculation derived them."


def explained_html(content: Content) -> Html:
    """The part on the sample that is explained; nothing where none is."""
    it = content.explained
    if it is None:
        return Html()
    if it.lines:
        return filled(_EXPLAINED, told=_told(it, content.sound, content.paths[0]))
    most = f"{grouped(MOST_KEYS)} facts or {counted(MOST_BYTES, 'byte')}"
    told = filled(_TOO_LONG, frame=frame_html(it.frame), channel=it.channel, most=most)
    return filled(_EXPLAINED, told=told)


def _told(it: Explained, file: File | None, script: str) -> Html:
    """The steps, the numbers of channels, and the text. The script is the path of its file."""
    telling = Telling(it.tape, it.known)
    there, wrong = _there(it, file) if file else ("", Html())
    return filled(
        _TOLD,
        frame=frame_html(it.frame),
        channel=it.channel,
        value=value_text(it.value()),
        there=there,
        facts=counted(len(it.lines), "fact"),
        by=_BY_PROGRAM if it.is_by_program else _BY_SECOND,
        wrong=wrong,
        steps=_step(telling, it.steps(), 1),
        counts=_counts(telling, list(it.counts())),
        text=_text(it, script),
    )


_WRONG = """<p class="outcome bad"><span class="sign" aria-hidden="true">{sign}</span>\
 <span>{text}</span></p>
"""


def _there(it: Explained, file: File) -> tuple[str, Html]:
    """What the file has of the sample, and what is wrong where that is something else."""
    sound = file.sound
    if sound.is_float or sound.bits not in (16, 24):
        return "", Html()
    found, wanted = int(sound.channels[it.channel][it.frame]), sample_of(it.value(), sound.bits)
    is_end = wanted in (-sound.full, sound.full - 1)
    told = f"which is {'the end of' if is_end else 'that in'} {sound.bits} bits"
    if found == wanted:
        return f"The file has {grouped(found)} there, {told}. ", Html()
    text = f"The file has {grouped(found)} there, and not {grouped(wanted)}, {told}."
    return "", filled(_WRONG, sign=SIGNS["refused"], text=text)


_LEAF = '<li class="leaf">{sentence}</li>'

_UNDER = """<li><details{is_open}><summary>{sentence}</summary>
<ul{deep}>{under}</ul></details></li>"""

_ASIDE = '<li class="leaf aside">{text}</li>'


def _asides(step: Step) -> list[Html]:
    """What is said of the facts that a step needs and that do not stand under it."""
    told = []
    if step.elsewhere:
        stand = "stands" if step.elsewhere == 1 else "stand"
        told.append(f"and {counted(step.elsewhere, 'fact')} that {stand} elsewhere here")
    if step.left:
        told.append(f"and {counted(step.left, 'fact')} more, with all that lead there")
    return [filled(_ASIDE, text=it) for it in told]


def _step(telling: Telling, step: Step, depth: int) -> Html:
    """A step with those under it."""
    under = [_step(telling, it, depth + 1) for it in step.under] + _asides(step)
    return filled(
        _UNDER if under else _LEAF,
        sentence=telling.sentence(step.key),
        is_open=Html(" open") if depth <= OPEN else "",
        deep=Html(' class="deep"') if depth >= INDENTED else "",
        under=joined(under, "\n"),
    )


def _counts(telling: Telling, counts: list[Count]) -> Html:
    """The numbers of channels, folded."""
    rows = (filled(_LEAF, sentence=telling.sentence(it)) for it in counts[:MOST_ROWS])
    more = more_rows(len(counts))
    shown = filled('<ul class="why">{rows}</ul>{more}', rows=joined(rows, "\n"), more=more)
    return folded(f"Numbers of channels ({counted(len(counts), 'fact')})", shown, is_open=False)


_COMMANDS = """<p class="aside">Run where the script stands, <code>waexplain derive {frame}\
 {channel} why.txt &lt; {script}</code> writes this text, and <code>waexplain check why.txt &lt;\
 {script}</code> checks it.</p>"""


def _text(it: Explained, script: str) -> Html:
    """The derivation as a text, folded, and the commands that write and check it."""
    lines, name = it.lines, shlex.quote(os.path.basename(script))
    more, first = len(lines) - MOST_LINES, itertools.islice(lines, MOST_LINES)
    shown = [
        filled(_COMMANDS, frame=it.frame, channel=it.channel, script=name),
        plain("The derivation", (line.rstrip("\n") for line in first)),
        filled('<p class="aside">and {more} more</p>' if more > 0 else "", more=grouped(more)),
    ]
    return folded(f"As a text ({counted(len(lines), 'line')})", joined(shown, "\n"), is_open=False)
