"""Reads the pages of recorder/pages: small pages, one for each kind of loss.

Each has a head and a body. The head says what its recording must give:

    kinds         the kinds of losses that its report has, no more and no less
    verdict       the verdict
    played again  the greatest difference from the page, if the browser plays the script again
    realtime      that it is a real-time piece, and its length in seconds
    loops         that it is recorded with loops as long as the browser has them
    timeout       the seconds after which it is given up, 20 where nothing is said
    form          own where the body is a whole script, chain where it gives a node between others.
                  Else it comes between the creation of a source and a gain and the rendering
    TYPE          words that make a page each, where the body has the word TYPE

The pages are recorded with the option plain, but for those of some files.
"""

import dataclasses
import re
from collections.abc import Iterator
from pathlib import Path

FOLDER = Path(__file__).resolve().parents[2] / "recorder" / "pages"

# What every page begins with.
HEAD = """<!doctype html>
<title>test page</title>
<script type="module">
const rate = 48000;
const make = (length = 4800, channels = 1) => new OfflineAudioContext(channels, length, rate);
const later = () => new Promise(done => setTimeout(done, 0));

// A source of a sawtooth whose samples are multiples of 2^-5.
function saw(context, options = {}) {
  const buffer = new AudioBuffer({
    length: 480, numberOfChannels: 1, sampleRate: context.sampleRate});
  buffer.getChannelData(0).forEach((_, frame, samples) => {
    samples[frame] = (frame % 64 - 32) / 32;
  });
  return new AudioBufferSourceNode(context, {buffer, loop: true, ...options});
}

// A context with a sawtooth that sounds through a gain.
function plain() {
  const context = make(), source = saw(context), gain = new GainNode(context, {gain: 0.5});
  source.connect(gain).connect(context.destination);
  source.start();
  return {context, source, gain};
}

"""

FORMS = {
    "plain": ("const {context, source, gain} = plain();\n", "await context.startRendering();\n"),
    "own": ("", ""),
    "chain": ("""const context = make(9600, 2);
const tone = new OscillatorNode(context, {type: 'triangle', frequency: 330});
const filter = new BiquadFilterNode(context, {frequency: 1500});
const echo = new DelayNode(context, {delayTime: 0.0625}), out = new GainNode(context, {gain: 0.5});
function made() {
""", """}
tone.connect(made()).connect(filter).connect(out).connect(context.destination);
filter.connect(echo).connect(out);
tone.start();
await context.startRendering();
"""),
}

REWRITTEN = ("lowered.md", "frozen.md", "chains.md")  # the others have --plain


@dataclasses.dataclass(frozen=True)
class Page:
    """A page, and what its recording must give."""

    name: str
    kinds: set[str]
    verdict: str
    tolerance: float | None
    realtime: float
    seconds: float
    plain: bool
    loops: bool
    text: str


def pages_of(path: Path) -> Iterator[Page]:
    """The pages of a file."""
    parts = re.split(r"^## ", path.read_text(encoding="utf-8"), flags=re.MULTILINE)[1:]
    for part in parts:
        title, head, *body = part.split("\n\n", 2)
        fields = dict(re.findall(r"^([\w ]+): (.*)$", head, flags=re.MULTILINE))
        script = re.sub(r"^    ", "", "".join(body), flags=re.MULTILINE).rstrip("\n") + "\n"
        before, after = FORMS[fields.get("form", "plain")]
        tolerance = fields.get("played again")
        for word in fields.get("TYPE", "-").split():
            yield Page(
                name=title if word == "-" else f"{title}_{word}",
                kinds=set(fields["kinds"].split()) - {"none"}, verdict=fields["verdict"],
                tolerance=None if tolerance is None else float(tolerance),
                realtime=float(fields.get("realtime", 0)),
                seconds=float(fields.get("timeout", 20)),
                plain=path.name not in REWRITTEN, loops="loops" in fields,
                text=HEAD + before + script.replace("TYPE", word) + after + "</script>\n")


PAGES = [page for path in sorted(FOLDER.glob("*.md")) for page in pages_of(path)]
