"""The section of the sound: what plays it, its waveforms with those of another file over them, its
numbers, and how the other file differs."""

import functools
import shlex

from waplay_tools.places import as_called_here
from waplay_tools.reporting import spectrogram, waveform
from waplay_tools.reporting.content import Content, File, Room, level, value_text
from waplay_tools.reporting.following import Mark
from waplay_tools.reporting.markup import Html, filled, isolated, joined, seconds, sentence
from waplay_tools.reporting.players import lost_html, players_html
from waplay_tools.reporting.tables import (
    MOST_ROWS,
    folded,
    frame_html,
    head,
    more_rows,
    numbers,
    table,
)
from waplay_tools.reporting.text import counted, decimal, grouped
from waplay_tools.reporting.wav_samples import Difference, Differences, Sound, peak
from waplay_tools.reporting.waveform import Placed


@functools.lru_cache(maxsize=None)
def _peaks(sound: Sound) -> list[tuple[float, float, int]]:
    """The peak of each channel."""
    return [peak(channel) for channel in sound.channels]


def _own(sample: float, sound: Sound) -> str:
    """A sample as its file has it."""
    return decimal(sample, 1) if sound.is_float else grouped(int(sample))


_NUMBERS = """<p class="aside">Of the file's samples, {kind}.</p>
{table}"""


def numbers_html(sound: Sound, rate: int) -> Html:
    """The table of peaks and sums."""
    rows = []
    for number, (greatest, value, frame) in enumerate(_peaks(sound)):
        cells = (
            _own(greatest, sound),
            decimal(value, sound.full),
            frame_html(frame),
            seconds(frame, rate),
            _own(sum(sound.channels[number]), sound),
        )
        row = '<tr><th scope="row" class="number">{number}</th>{cells}</tr>'
        rows.append(filled(row, number=number, cells=numbers(*cells)))
    total = sum(sum(channel) for channel in sound.channels)
    greatest = max(it[0] for it in _peaks(sound))
    both = numbers(_own(greatest, sound), "", "", "", _own(total, sound))
    rows.append(filled('<tr class="total"><th scope="row">all</th>{cells}</tr>', cells=both))
    titles = head(figures=("Channel", "Peak", "as a value", "first at frame", "Time", "Sum"))
    kind = f"whole numbers of {sound.bits} bits: {grouped(sound.full)} stands for 1.0"
    shown = filled(
        _NUMBERS,
        kind="floats of 32 bits" if sound.is_float else kind,
        table=table("numbers", "Peak and sum", titles, rows),
    )
    return folded("Peak and sum", shown, len(rows))


_TOOLS = """<div class="tools" hidden>
<button type="button" data-do="in">Zoom in</button>
<button type="button" data-do="out">Zoom out</button>
<button type="button" data-do="earlier">Earlier</button>
<button type="button" data-do="later">Later</button>
<button type="button" data-do="whole">Whole</button>
<form class="range"><label>From frame
<input type="number" name="first" min="0" max="{last}" value="0" step="1"></label>
<label>to frame <input type="number" name="last" min="1" max="{frames}" value="{frames}" step="1">\
</label>
<button type="submit">Show</button></form>
{asking}<p class="hint">Drag over the waveform to zoom, click to play from there{clicked}. Keys on\
 the
waveform: + and \u2212 zoom, \u2190 and \u2192 move, Home and End go to the ends, 0 shows the\
 whole.</p>
<p class="status" role="status"></p>{answer}</div>"""

_ASKING = """<form class="range asking" data-command="{command}"><label>Frame
<input type="number" name="frame" min="0" max="{last}" value="0" step="1"></label>
<label>of channel <input type="number" name="channel" min="0" max="{channels}" value="0"\
 step="1"></label>
<button type="submit">Why is it so?</button></form>
"""

_ANSWER = """
<p class="answered" role="status" hidden>This command, run {where}, makes a page that says why:\
 <code></code></p>"""



def _tools(content: Content, sound: Sound) -> Html:
    """What zooms, and what asks why a sample is what it is, where a command can tell."""
    asking = answer = Html()
    if content.paths:
        command = as_called_here(shlex.join(["tools/report", *content.paths, "--explain"]))
        asking = filled(
            _ASKING, command=command, last=sound.frames - 1, channels=len(sound.channels) - 1
        )
        where = f"in {content.paths_of}" if content.paths_of else "where this page was made"
        answer = filled(_ANSWER, where=where)
    return filled(
        _TOOLS,
        last=sound.frames - 1,
        frames=sound.frames,
        asking=asking,
        clicked=" and to ask why a sample is what it is" if content.paths else "",
        answer=answer,
    )


_NAMED = """<div class="lane-name"><span>{name}</span><span class="aside">{ends}</span></div>\
{drawing}"""

_ATTRIBUTES = 'data-sound="{sound}" data-channel="{channel}" data-scale="{scale!r}"{fine}'


class Lanes:
    """The lanes of the channels of a content: over which scale, with which marks, and whether the
    page has the samples or columns in their place."""

    def __init__(self, content: Content, marks: list[Placed], is_whole: bool) -> None:
        assert content.sound is not None
        self.content, self.marks, self.is_whole = content, marks, is_whole
        self.sound = content.sound.sound
        self.other = content.other.sound if content.other else None
        self.scale = waveform.scale_of([it for it in (self.sound, self.other) if it])

    def _fine(self, number: int) -> Html:
        """The columns for zooming, where the samples are not in the page."""
        if self.is_whole:
            return Html()
        found = []
        for name, sound in (("columns", self.sound), ("over", self.other)):
            if sound and number < len(sound.channels):
                columns = waveform.fine_columns(
                    sound.channels[number], sound.full * self.scale
                )
                found.append(filled(' data-{name}="{it}"', name=name, it=columns))
        return joined(found)

    def wave(self, number: int) -> Html:
        """The lane of a channel."""
        samples, sound = self.sound.channels[number], self.sound
        _, value, frame = _peaks(sound)[number]
        name = f"Channel {number}"
        label = f"Waveform. {name}: peak {decimal(value, sound.full)} at frame {grouped(frame)}"
        over = Html()
        if self.other and number < len(self.other.channels):
            label += ", with the other sound drawn over it"
            there = self.other.channels[number][: sound.frames]
            over = waveform.other_path(there, self.other.full * self.scale)
        attributes = filled(
            _ATTRIBUTES, sound="sound", channel=number, scale=self.scale, fine=self._fine(number)
        )
        columns = min(waveform.COLUMNS, sound.frames)
        inside = waveform.wave_inside(samples, sound.full * self.scale, self.marks, over)
        drawing = waveform.lane(columns, sound.frames, sound.frames, label, attributes, inside)
        ends = f"\u2212{self.scale:g} to {self.scale:g}"
        return filled(_NAMED, name=name, ends=ends, drawing=drawing)

    def difference(self, differences: Differences, number: int, marks: list[Placed]) -> Html:
        """The lane of the differences of a channel, in decibels."""
        channel = differences.channels[number]
        name = f"Difference of channel {number}"
        greatest = peak(channel)[0]
        label = f"{name}, in decibels: the greatest is {_decibels(greatest)}"
        fine = Html()
        if not self.is_whole:
            fine = filled(
                ' data-columns="{it}"', it=waveform.fine_columns(channel, greatest or 1.0)
            )
        attributes = filled(
            _ATTRIBUTES, sound="difference", channel=number, scale=greatest or 1.0, fine=fine
        )
        columns = min(waveform.COLUMNS, len(channel))
        inside = waveform.decibel_inside(channel, differences.tolerance, marks)
        drawing = waveform.lane(
            columns, len(channel), self.sound.frames, label, attributes, inside
        )
        ends = f"0 to {waveform.DEEPEST:g} dB"
        if differences.tolerance:
            ends += f", line at {_decibels(differences.tolerance)}"
        return filled(_NAMED, name=name, ends=ends.replace("-", "\u2212"), drawing=drawing)


def _decibels(magnitude: float) -> str:
    """A magnitude in decibels, in words."""
    if not magnitude:
        return "none"
    return f"{waveform.decibels(magnitude):.1f} dB".replace("-", "\u2212")


_EVENT = """<tr>{cells}<td class="event">{sign} {name}<p class="rule">{text}.</p></td></tr>"""


def _event(mark: Mark, rate: int) -> Html:
    """A row of the table of the marks."""
    when, time = frame_html(mark.low), seconds(mark.low, rate)
    if mark.low != mark.high:
        when = filled("{begin} to {end}", begin=when, end=grouped(mark.high))
        time = filled("{begin} to {end}", begin=time, end=seconds(mark.high, rate))
    return filled(
        _EVENT,
        cells=numbers(when, time),
        sign=waveform.sign(mark.kind),
        name=waveform.MARKS[mark.kind][2],
        text=sentence(mark.text),
    )


_SPANS = Html(
    "<p>Where two frames stand, the source ended between them: it played a decoded file,"
    " whose length is not known.</p>"
)


def events_html(marks: list[Mark], rate: int) -> Html:
    """The table of the marks."""
    if not marks:
        return Html('<p class="aside">No source ended, and nothing was suspended.</p>')
    titles = head(figures=("Frame", "Time"), last=("Event",))
    rows = [_event(mark, rate) for mark in marks[:MOST_ROWS]]
    has_spans = any(mark.low != mark.high for mark in marks)
    shown = [
        table("events", "Events of the time line", titles, rows),
        more_rows(len(marks), "events more, which the transcript has"),
        *([_SPANS] if has_spans else []),
    ]
    return folded(f"Events of the time line ({grouped(len(marks))})", joined(shown), len(marks))


def _kinds(differences: Differences) -> list[tuple[str, Difference]]:
    """The first difference beyond the tolerance and the greatest one, where there are any."""
    both = ("first", differences.first), ("greatest", differences.greatest)
    return [(kind, it) for kind, it in both if it is not None]


def _difference_marks(differences: Differences | None) -> list[Mark]:
    """The marks of the first and of the greatest difference."""
    return [
        Mark(kind, it.frame, it.frame, f"channel {it.channel}: {level(abs(it.less))}")
        for kind, it in (_kinds(differences) if differences else [])
    ]


def tolerance_text(tolerance: float) -> str:
    """A tolerance as people name it."""
    power = 0
    while power < 40 and 2.0**-power > tolerance:
        power += 1
    return f"2^\u2212{power}" if power and 2.0**-power == tolerance else level(tolerance)


def differences_told(differences: Differences) -> str:
    """In words, in what the files differ, and how many samples."""
    lines, samples = [], sum(map(len, differences.channels))
    if differences.shapes:
        shapes = ", ".join(
            f"{what} ({grouped(one)} here, {grouped(two)} there)"
            for what, one, two in differences.shapes
        )
        lines.append(
            f"The files differ in {shapes}. Compared are the channels and frames that both have."
        )
    allowed = tolerance_text(differences.tolerance)
    if not differences.count:
        lines.append(f"No sample differs, of {grouped(samples)} that were compared.")
    else:
        differ = counted(samples, "sample differs", "samples differ")
        lines.append(f"{grouped(differences.count)} of {differ}.")
        beyond = "none" if not differences.beyond else grouped(differences.beyond)
        verb = "differs" if differences.beyond == 1 else "differ"
        lines.append(f"By more than the tolerance, {allowed}, {verb} {beyond}.")
    return " ".join(lines)


_DIFFERENCE = '<tr><th scope="row">{sign} {kind}</th>{cells}</tr>'

_DIFFERENCES = """<h3>Differences</h3>
<p>{here} against {there}. {told}</p>{numbers}{places}"""


def differences_html(content: Content) -> Html:
    """What differs between the two files of a content."""
    differences, sound, other = content.differences, content.sound, content.other
    assert differences and sound and other
    rows = [
        filled(
            _DIFFERENCE,
            sign=waveform.sign(kind),
            kind=kind,
            cells=numbers(
                _signed(it.less),
                _decibels(abs(it.less)),
                frame_html(it.frame),
                seconds(it.frame, sound.sound.rate),
                it.channel,
                value_text(it.here, sound.sound),
                value_text(it.there, other.sound),
            ),
        )
        for kind, it in _kinds(differences)
    ]
    titles = head(
        ("Difference",),
        ("There less here", "Decibels", "Frame", "Time", "Channel", "Sample here", "Sample there"),
    )
    return filled(
        _DIFFERENCES,
        here=isolated(sound.label),
        there=isolated(other.label),
        told=differences_told(differences),
        numbers=table("numbers", "First and greatest difference", titles, rows) if rows else "",
        places=_places_html(differences, sound.sound.rate) if differences.beyond else "",
    )


def _signed(value: float) -> str:
    """A difference with its sign."""
    return ("\u2212" if value < 0 else "") + level(abs(value))


def _places_html(differences: Differences, rate: int) -> Html:
    """The table of the places beyond the tolerance."""
    places = differences.places()
    rows = [
        filled(
            "<tr>{cells}</tr>",
            cells=numbers(
                frame_html(it.first),
                grouped(it.last),
                seconds(it.first, rate),
                level(it.greatest),
                _decibels(it.greatest),
            ),
        )
        for it in places[:MOST_ROWS]
    ]
    titles = head(figures=("From frame", "To frame", "Time", "Greatest", "Decibels"))
    title = f"Places beyond the tolerance ({grouped(len(places))})"
    shown = table("numbers", "Places beyond the tolerance", titles, rows)
    return folded(title, joined([shown, more_rows(len(places))]), len(places))


def legend_html(marks: list[Mark], over: tuple[str, str] | None = None) -> Html:
    """What the signs of these marks mean, and which of two sounds is drawn how."""
    texts = [
        filled("<li>{sign} {text}</li>", sign=waveform.sign(kind), text=text)
        for kind, (_, _, text) in waveform.MARKS.items()
        if any(mark.kind == kind for mark in marks)
    ]
    if any(mark.low != mark.high for mark in marks):
        texts.append(
            filled("<li>{band} a source ended somewhere in this span</li>", band=waveform.BAND)
        )
    if over:
        sample = '<li><span class="swatch {kind}" aria-hidden="true"></span> {text}</li>'
        pairs = ("filled", f"filled: {over[0]}"), ("outlined", f"outline: {over[1]}")
        texts[:0] = [filled(sample, kind=kind, text=text) for kind, text in pairs]
    legend = '<ul class="legend" aria-label="Signs of the time line">{texts}</ul>'
    return filled(legend if texts else "", texts=joined(texts))


_NO_SOUND = """<h3>Sound</h3>
<p>{told}</p>{line}"""


def no_sound_html(told: Html, marks: list[Mark], length: int, rate: int) -> Html:
    """The part in place of the sound, where the session wrote no file, for a reason that is
    HTML."""
    line = '<div class="wave">{line}</div>{legend}{events}'
    return filled(
        _NO_SOUND,
        told=told,
        line=filled(
            line if marks else "",
            line=waveform.time_line(marks, max(1, length), rate),
            legend=legend_html(marks),
            events=events_html(marks, rate),
        ),
    )


_SOUND = """<h3>Sound</h3>
{players}{lost}
{tools}
<div class="wave" role="group" aria-label="Waveform by channel" data-frames="{frames}"\
 data-rate="{rate}" data-tolerance="{tolerance!r}">
{lanes}{time_line}<div class="selection" hidden></div><div class="playhead" hidden></div></div>
{legend}
{differences}
{numbers}
{events}"""


def sound_html(content: Content, room: Room, further: Html = Html()) -> Html:
    """The part of the sound, with further lanes below those of the channels."""
    file, other, differences = content.sound, content.other, content.differences
    assert file is not None
    sound, marks = file.sound, content.session.marks
    all_marks = marks + _difference_marks(differences)
    players, is_whole = players_html(file, other, room)
    lanes = Lanes(content, waveform.placed(all_marks, sound.frames), is_whole)
    drawn = [lanes.wave(number) for number in range(len(sound.channels))]
    if differences is not None and differences.count:
        marked = waveform.placed(_difference_marks(differences), sound.frames)
        drawn += [
            lanes.difference(differences, number, marked)
            for number in range(len(differences.channels))
        ]
    drawn += [spectrogram.lane(sound), further]
    return filled(
        _SOUND,
        players=players,
        lost=joined(lost_html(it) for it in (file, other) if it),
        tools=_tools(content, sound),
        frames=sound.frames,
        rate=sound.rate,
        tolerance=differences.tolerance if differences else 0.0,
        lanes=joined(drawn),
        time_line=waveform.time_line(all_marks, sound.frames, sound.rate),
        legend=legend_html(all_marks, (file.label, other.label) if other else None),
        differences=differences_html(content) if differences else "",
        numbers=numbers_html(sound, sound.rate),
        events=events_html(marks, sound.rate),
    )


def named(file: File, label: str) -> File:
    """The file under another label."""
    return File(file.path, file.data, file.sound, label)
