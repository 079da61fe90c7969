"""Tests of pages that come to nothing, or to less than they should: each ends soon, with its cause
in one sentence and a status."""

import dataclasses
import re
import time
import unittest

from recording import needs_browser, run_record, temporary_folder, write_files

CONTEXT = "const context = new OfflineAudioContext(1, 4800, 48000);"
SOUND = CONTEXT + """
const source = new ConstantSourceNode(context, {offset: 0.5});
source.connect(context.destination);
source.start();
"""
WORKER = """
new Worker(URL).onmessage = () => { new OfflineAudioContext(1, 128, 48000).startRendering(); };
"""
SERVED = " Only the page's folder is served; --root FOLDER serves one above it."
SOON = 55  # seconds; the whole wait is 60
NONE = "The page made no audio context"
NOT_STARTED = "No context of the page started rendering"


@dataclasses.dataclass(frozen=True)
class Trouble:
    """A page, the options it is recorded with, and how that ends."""

    body: str
    sentence: str
    status: int = 2
    words: tuple[str, ...] = ()


def script(text: str) -> str:
    """A script of a page."""
    return f"<script>{text}</script>"


def module(text: str) -> str:
    """A module of a page."""
    return f"<script type=module>{text}</script>"


TROUBLES = {
    "exception": Trouble(
        script("const engine = new Engine();"),
        f"{NONE}: it threw ReferenceError: Engine is not defined (exception.html, line 1)."),
    "exception_of_a_timer": Trouble(
        script("setTimeout(() => { undefined.start(); }, 300);"),
        f"{NONE}: it threw TypeError: Cannot read properties of undefined (reading 'start') "
        "(exception_of_a_timer.html, line 1)."),
    "rejection": Trouble(
        script("Promise.reject(new Error('no engine'));"),
        f"{NONE}: it threw Error: no engine (rejection.html, line 1)."),
    "text_thrown": Trouble(
        script("throw 'no sound';"), f"{NONE}: it threw no sound (text_thrown.html, line 1)."),
    "syntax": Trouble(
        script("const = 3;"),
        f"{NONE}: it threw SyntaxError: Unexpected token '=' (syntax.html, line 1)."),
    "missing_script": Trouble(
        "<script src=missing/engine.js></script>" + script("new Engine().play();"),
        f"{NONE}: it could not load /missing/engine.js (404 File not found) and threw "
        f"ReferenceError: Engine is not defined (missing_script.html, line 1).{SERVED}"),
    "missing_module": Trouble(
        module("import {play} from './missing.js'; play();"),
        f"{NONE}: it could not load /missing.js (404 File not found).{SERVED}"),
    "network_not_reached": Trouble(
        "<script src=http://network.invalid/tone.js></script>" + script("Tone.start();"),
        f"{NONE}: it could not load http://network.invalid/tone.js (net::ERR_NAME_NOT_RESOLVED) "
        "and threw ReferenceError: Tone is not defined (network_not_reached.html, line 1)."),
    "bare_import": Trouble(
        module("import * as Tone from 'tone'; Tone.start();"),
        f'{NONE}: it threw TypeError: Failed to resolve module specifier "tone". Relative '
        'references must start with either "/", "./", or "../" (bare_import.html, line 1).'),
    "above_the_folder": Trouble(
        "<script src=../lib/engine.js></script>" + script("new Engine().play();"),
        f"{NONE}: it could not load /lib/engine.js (404 File not found) and threw "
        f"ReferenceError: Engine is not defined (above_the_folder.html, line 1).{SERVED}"),
    "decoding": Trouble(
        script(CONTEXT + "context.decodeAudioData(new ArrayBuffer(99))"
               ".then(() => context.startRendering());"),
        f"{NOT_STARTED}: it threw EncodingError: Unable to decode audio data "
        "(decoding.html, line 1)."),
    "decoding_told": Trouble(
        script(CONTEXT + "context.decodeAudioData(new ArrayBuffer(99))"
               ".then(() => context.startRendering()).catch(fault => console.error('no', fault));"),
        f"{NOT_STARTED}: it says: no EncodingError: Unable to decode audio data."),
    "missing_sample": Trouble(
        script(CONTEXT + "fetch('kick.wav').then(answer => answer.arrayBuffer())"
               ".then(data => context.decodeAudioData(data))"
               ".then(() => context.startRendering());"),
        f"{NOT_STARTED}: it could not load /kick.wav (404 File not found) and threw EncodingError: "
        f"Unable to decode audio data (missing_sample.html, line 1).{SERVED}"),
    "missing_worker": Trouble(
        script(WORKER.replace("URL", "'clock.js'")),
        f"{NONE}: it could not load /clock.js (404 File not found).{SERVED}"),
    "exception_of_a_worker": Trouble(
        script("const clock = new Blob([\"throw new Error('stopped')\"]);"
               + WORKER.replace("URL", "URL.createObjectURL(clock)")),
        f"{NONE}: it threw Error: stopped (a blob URL, line 1)."),
    "argument": Trouble(
        script(CONTEXT + "context.createGain().connect(5);"),
        f"{NOT_STARTED}: it threw TypeError: Failed to execute 'connect' on 'AudioNode': Overload "
        "resolution failed (argument.html, line 1)."),
    "late_exception": Trouble(
        script(SOUND + "context.startRendering().then(() => { draw(); });"),
        "the page threw ReferenceError: draw is not defined (late_exception.html, line 5)",
        status=1),
    "not_resumed": Trouble(
        script(SOUND + "context.suspend(0.01).then(() => { none.gain = 1; context.resume(); });"
               "context.startRendering();"),
        "context 1: not-finished is refused", status=1),
    "never_resumed": Trouble(
        script(SOUND + "context.suspend(0.01);context.startRendering();"),
        "context 1: not-finished is refused", status=1),
    # The audio waits for the worker, so the piece stands still for longer than a page is left calm
    # where something went wrong in it.
    "busy_worker": Trouble(
        script("const context = new AudioContext();"
               "const source = new ConstantSourceNode(context, {offset: 0.5});"
               "source.connect(context.destination);"
               "source.start();"
               "const code = 'onmessage = () => { const end = +new Date() + 4000; "
               "while (+new Date() < end); }';"
               "const worker = new Worker(URL.createObjectURL(new Blob([code])));"
               "setTimeout(() => { worker.postMessage(0); draw(); }, 100);"),
        "the page threw ReferenceError: draw is not defined (busy_worker.html, line 1)", status=1,
        words=("--realtime", "0.5")),
    "waits_for_a_click": Trouble(
        "<button id=start>play</button>" + script(f"start.onclick = () => {{ {CONTEXT} }};"),
        f"{NONE} within N seconds; perhaps it waits for a click, as --click '#start'."),
    "click_on_nothing": Trouble(
        "", "The page has no element #none.", words=("--click", "#none", "--timeout", "2")),
    "no_selector": Trouble("", "## is no selector.", words=("--click", "##")),
    "clicked_in_vain": Trouble(
        "<button id=start>play</button>", f"{NONE} after the click within N seconds.",
        words=("--click", "#start", "--timeout", "2")),
    "not_started": Trouble(script(CONTEXT), f"{NOT_STARTED} within N seconds."),
    "empty": Trouble("", f"{NONE} within N seconds.", words=("--timeout", "2")),
    "not_real_time": Trouble(
        script(CONTEXT), "The page made no AudioContext within N seconds.",
        words=("--realtime", "1", "--timeout", "2")),
    "real_time": Trouble(
        script("new AudioContext();"),
        "The page has a real-time AudioContext; record it with --realtime SECONDS."),
    "endless_loop": Trouble(
        script("for (;;);"), "The page's scripts ran without a pause until the N seconds of the "
        "wait were over.", words=("--timeout", "3")),
    "silent": Trouble(script(CONTEXT + "context.startRendering();"), "context 1 is silent",
                      status=3),
    "asks": Trouble(script("alert('?'); confirm('?'); prompt('?');" + SOUND
                           + "context.startRendering();"), "", status=0),
    "page_left": Trouble(
        "<iframe id=inner src=sound.html></iframe>"
        + script("onmessage = () => inner.remove();"),
        f"{NONE}: the page left a document with 1 contexts, which are lost.",
        words=("--timeout", "4")),
    "too_few_contexts": Trouble(
        script(SOUND + "context.startRendering();"),
        "the page rendered 1 contexts, and --contexts asks for 2", status=1,
        words=("--contexts", "2", "--timeout", "3")),
    "until_never": Trouble(
        script(SOUND + "context.startRendering();"),
        "the page never came to --until window.isDone", status=1,
        words=("--until", "window.isDone", "--timeout", "3")),
    "rounded": Trouble(
        script(SOUND + "source.offset.value = 0.1; context.startRendering();"), "", status=0,
        words=("--strict",)),
    "rounded_and_exact": Trouble(
        script(SOUND + "source.offset.value = 0.1; context.startRendering();"),
        "context 1: value-rounded is rounded", status=1, words=("--exact",)),
    "heard": Trouble(
        script(SOUND + "source.disconnect(); const delay = new DelayNode(context, "
               "{delayTime: 0.00101}); source.connect(delay).connect(context.destination);"
               "context.startRendering();"),
        "context 1: delay-fraction is heard", status=1, words=("--strict",)),
    "refused": Trouble(
        script(SOUND + "context.createPanner(); context.startRendering();"),
        "context 1: panner is refused", status=1, words=("--plain",)),
}


@needs_browser
class Troubles(unittest.TestCase):
    """Each page is recorded by the command line."""

    def look_at(self, name: str, trouble: Trouble) -> None:
        folder = temporary_folder(self)
        page = f"<!doctype html><title>{name}</title>{trouble.body}"
        sound = script(SOUND + "context.startRendering().then(() => parent.postMessage(1));")
        write_files(folder, {f"{name}.html": page, "sound.html": f"<!doctype html>{sound}"})
        begun = time.monotonic()
        run = run_record(folder / f"{name}.html", folder / "out", *trouble.words)
        told = re.sub(r"\d+ seconds", "N seconds", run.stderr)
        wanted = f"tools/record: {trouble.sentence}\n" if trouble.sentence else ""
        self.assertEqual((told, run.returncode), (wanted, trouble.status))
        self.assertLess(time.monotonic() - begun, SOON)


def add_troubles() -> None:
    """Makes a test of each page."""
    for name, trouble in TROUBLES.items():
        def look(self: Troubles, name: str = name, trouble: Trouble = trouble) -> None:
            self.look_at(name, trouble)
        setattr(Troubles, f"test_{name}", look)


add_troubles()

if __name__ == "__main__":
    unittest.main()
