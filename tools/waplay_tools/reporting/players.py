"""What plays the sounds of a page."""

from waplay_tools.reporting.content import File, Room, data_url
from waplay_tools.reporting.markup import Html, filled, joined
from waplay_tools.reporting.text import counted, grouped, visible
from waplay_tools.reporting.wav_samples import front_of

MOST_PLAYED = 8  # channels of a file that browsers are sure to play

_PLAYER = """<div class="player"><span>{label}</span><audio controls preload="metadata"\
 data-sound="{name}"{whole} aria-label="{label}" src="{source}"></audio>{note}</div>"""

_BESIDE = """<p class="aside">It has {size}, so it is not in this page: it is played from\
 <code>{path}</code> beside it.</p>"""


def _player(file: File, name: str, room: Room) -> tuple[Html, bool]:
    """What plays a file, and whether its samples are in the page."""
    label, whole = file.label, Html()
    if not room.take(file.data):
        size = counted(len(file.data), "byte")
        if len(file.sound.channels) > MOST_PLAYED:
            label += f": browsers may not play more than {MOST_PLAYED} channels"
        note = filled(_BESIDE, size=size, path=visible(room.link(file.path)))
        source = room.link(file.path)
        return filled(
            _PLAYER, name=name, label=label, whole=whole, source=source, note=note
        ), False
    source = data_url("audio/wav", file.data)
    if len(file.sound.channels) > MOST_PLAYED and not file.sound.is_float:
        label += f", channels 0 and 1: browsers may not play more than {MOST_PLAYED} channels"
        whole = filled(' data-file="{source}"', source=source.partition(",")[2])
        source = data_url("audio/wav", front_of(file.data))
    return filled(
        _PLAYER, name=name, label=label, whole=whole, source=Html(source), note=""
    ), True


def players_html(sound: File, other: File | None, room: Room) -> tuple[Html, bool]:
    """What plays one sound or both, and whether the samples of all of them are in the page."""
    made = [_player(sound, "sound", room)]
    if other:
        made.append(_player(other, "other", room))
    shown = filled('<div class="players">{all}</div>', all=joined(html for html, _ in made))
    return shown, all(is_whole for _, is_whole in made)


def lost_html(file: File) -> Html:
    """A line on samples of a file that are no numbers."""
    if not file.sound.lost:
        return Html()
    return filled(
        '<p class="aside">{label}: {count} no finite numbers, and count as 0.</p>',
        label=file.label,
        count=f"{grouped(file.sound.lost)} samples are",
    )
