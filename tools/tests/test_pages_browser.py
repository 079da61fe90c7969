"""Tests of reports in a headless Chromium: how they are laid out, in the light and the dark, at 390
and at 1,280 pixels; zooming by mouse and by keys; names for screen readers; and that nothing of a
script runs.

The variable REPORT_PICTURES may name a folder, which then gets a picture of each page.
"""

import os
import re
import struct
import tempfile
import unittest

import browser
import pages_shown
from waplay_tools.reporting import waveform
from waplay_tools.reporting.wav_samples import sound_of, spans

# What keys stop at, in the order of the page; of a choice it is the one that is chosen.
STOPS = """window.stops = [...document.querySelectorAll(
    'a[href], button, input, audio, summary, [tabindex="0"]')].filter(
    it => it.checkVisibility() && (it.type !== 'radio' || it.checked));
stops.length"""
AT = """[stops.indexOf(document.activeElement), document.activeElement === document.body,
    getComputedStyle(document.activeElement).outlineStyle, document.activeElement.localName]"""

HERE = os.path.dirname(os.path.abspath(__file__))
GROUNDS = {"light": "rgb(255, 255, 255)", "dark": "rgb(15, 20, 25)"}
NAMED = {
    "button",
    "textbox",
    "spinbutton",
    "radio",
    "image",
    "img",
    "region",
    "table",
    "Audio",
    "columnheader",
}


@unittest.skipUnless(browser.PROGRAM, "chromium is not installed")
class Pages(unittest.TestCase):
    @classmethod
    def setUpClass(cls):
        folder = tempfile.TemporaryDirectory()
        cls.addClassCleanup(folder.cleanup)
        cls.paths = pages_shown.paths_of_all(folder.name)
        cls.sounds = {it.name: it.sound for it in pages_shown.sessions_shown()}
        cls.browser = browser.Browser()
        cls.addClassCleanup(cls.browser.close)

    def show(self, name, width=1280, scheme="light", scripts=True):
        """Shows a page, which must not have an error of a script or of its policy."""
        self.browser.show(self.paths[name], width, scheme, scripts)
        if scripts:
            self.browser.evaluate("new Promise(done => setTimeout(done, 50))")
        errors = [
            event.params
            for event in self.browser.events
            if event.method in ("Runtime.exceptionThrown", "Log.entryAdded")
        ]
        self.assertEqual(errors, [], name)

    def text(self, selector):
        return self.browser.evaluate("document.querySelector(%r).textContent" % selector)

    def test_nothing_overlaps_or_is_cut_off_and_texts_have_contrast(self):
        with open(os.path.join(HERE, "probe.js"), encoding="utf-8") as file:
            probe = file.read()
        pictures = os.environ.get("REPORT_PICTURES")
        for name in self.paths:
            for width in (390, 1280):
                for scheme, ground in GROUNDS.items():
                    self.show(name, width, scheme)
                    found = self.browser.evaluate(probe)
                    self.assertEqual(found["wrong"], [], (name, width, scheme))
                    self.assertEqual(found["ground"], ground)
                    self.assertGreater(found["boxes"], 10)
                    if pictures:
                        self.browser.picture(
                            os.path.join(pictures, "%s-%d-%s.png" % (name[:20], width, scheme))
                        )

    def test_the_probe_sees_what_is_wrong(self):
        with open(os.path.join(HERE, "probe.js"), encoding="utf-8") as file:
            probe = file.read()
        for change, wanted in [
            ("it.style.width = '5000px'", "reaches out of the window"),
            ("it.style.position = 'absolute'", "overlap"),
            ("it.style.color = '#999999'", "has a contrast of"),
            (
                "it.style.cssText = 'width: 40px; overflow: hidden; white-space: nowrap'",
                "is cut off",
            ),
        ]:
            self.show("ended", 390)
            self.browser.evaluate("(it => { %s; })(document.querySelector('.outcome'))" % change)
            self.assertIn(wanted, " ".join(self.browser.evaluate(probe)["wrong"]))

    def test_pictures_are_light_and_dark_at_both_widths(self):
        for width in (390, 1280):
            pictures = []
            for scheme in GROUNDS:
                self.show("ended", width, scheme)
                path = self.paths["ended"] + ".png"
                self.browser.picture(path)
                with open(path, "rb") as file:
                    pictures.append(file.read())
                self.assertEqual(struct.unpack(">I", pictures[-1][16:20]), (width,))
            self.assertNotEqual(*pictures)

    def test_a_page_is_whole_without_scripts(self):
        with open(os.path.join(HERE, "probe.js"), encoding="utf-8") as file:
            probe = file.read()
        for width in (390, 1280):
            self.show("resumed", width, scripts=False)
            self.assertEqual(self.browser.evaluate(probe)["wrong"], [])
            self.assertFalse(
                self.browser.evaluate("document.querySelector('.tools').checkVisibility()")
            )
            box = self.browser.evaluate(
                "(({width, height}) => [width, height])"
                "(document.querySelector('.envelope').getBoundingClientRect())"
            )
            self.assertGreater(min(box), 40)

    def test_nothing_of_a_script_runs(self):
        for scripts in (True, False):
            self.show("hostile", scripts=scripts)
            self.assertEqual(self.browser.evaluate("typeof window.hurt"), "undefined")
            self.assertEqual(
                self.browser.evaluate("document.querySelectorAll('img, iframe, a').length"), 0
            )
            self.assertEqual(self.browser.evaluate("document.scripts.length"), 1)
        requests = [
            event.params["request"]["url"][:5]
            for event in self.browser.events
            if event.method == "Network.requestWillBeSent"
        ]
        self.assertTrue(set(requests) <= {"file:", "data:"}, requests)

    def test_the_policy_stops_what_is_put_in(self):
        self.show("hostile")
        self.browser.evaluate(
            """document.body.insertAdjacentHTML('beforeend',
                '<img src="x" onerror="window.hurt = 1"><p onclick="window.hurt = 1">x</p>');
            document.querySelector('p[onclick]').click();
            new Promise(done => setTimeout(done, 50))"""
        )
        self.assertEqual(self.browser.evaluate("typeof window.hurt"), "undefined")

    def numbers(self, path):
        return [float(it) for it in re.findall(r"-?[\d.]+", path)]

    def assert_drawn(self, name, first, last):
        """That the first channel's drawing is that of these frames, as Python draws them."""
        sound = sound_of(self.sounds[name], "it")
        full = sound.full * float(
            self.browser.evaluate("document.querySelector('.drawing').dataset.scale")
        )
        wanted = self.numbers(
            waveform.path_of(spans(sound.channels[0][first:last], waveform.COLUMNS), full)
        )
        found = self.numbers(
            self.browser.evaluate("document.querySelector('.envelope').getAttribute('d')")
        )
        self.assertEqual(len(found), len(wanted))
        self.assertLess(max(abs(a - b) for a, b in zip(found, wanted)), 0.11)

    def test_drawings_are_the_same_with_and_without_scripts(self):
        for name in ("resumed", "wide", "decoded", "take"):
            drawings = []
            for scripts in (True, False):
                self.show(name, scripts=scripts)
                drawings.append(
                    self.browser.evaluate(
                        """[...document.querySelectorAll('.drawing')].map(it =>
                            it.getAttribute('viewBox') + ' ' + [...it.querySelectorAll(
                                '.envelope, .other')].map(one => one.getAttribute('d')))"""
                    )
                )
            for one, two in zip(*(map(self.numbers, it) for it in drawings)):
                self.assertEqual(len(one), len(two))
                self.assertLess(max(abs(a - b) for a, b in zip(one, two)), 0.11)

    def test_zooming_by_keys(self):
        self.show("resumed")
        self.assertEqual(self.text(".status"), "Shown: frames 0 to 2,048 of 2,048, the whole")
        self.assert_drawn("resumed", 0, 2048)
        for _ in range(40):
            if self.browser.evaluate("document.activeElement.className") == "wave":
                break
            self.browser.key("Tab")
        self.assertEqual(
            self.browser.evaluate("getComputedStyle(document.activeElement).outlineStyle"), "solid"
        )
        for key, first, last in [
            ("+", 512, 1536),
            ("+", 768, 1280),
            ("ArrowRight", 896, 1408),
            ("ArrowLeft", 768, 1280),
            ("End", 1536, 2048),
            ("Home", 0, 512),
            ("-", 0, 1024),
            ("0", 0, 2048),
        ]:
            self.browser.key(key)
            self.assertEqual(
                self.text(".status").replace(", the whole", ""),
                "Shown: frames %s to %s of 2,048"
                % tuple("{:,}".format(it) for it in (first, last)),
            )
            self.assert_drawn("resumed", first, last)

    def test_zooming_by_dragging_and_by_numbers(self):
        self.show("resumed", 1000)
        self.browser.evaluate("document.querySelector('.lane').scrollIntoView()")
        left, top, width = self.browser.evaluate(
            "(box => [box.left, box.top, box.width])"
            "(document.querySelector('.lane').getBoundingClientRect())"
        )
        self.browser.drag((left + width * 0.25, top + 20), (left + width * 0.5, top + 30))
        first, last = (
            int(it.replace(",", "")) for it in re.findall(r"[\d,]+", self.text(".status"))[:2]
        )
        self.assertAlmostEqual(first, 512, delta=4)
        self.assertAlmostEqual(last, 1024, delta=4)
        self.assert_drawn("resumed", first, last)
        marks = self.browser.evaluate(
            "[...document.querySelectorAll('use.placed')]"
            ".filter(it => it.style.display !== 'none').map(it => it.dataset.low)"
        )
        self.assertEqual(
            sorted(map(int, marks)), [it for it in (512, 900, 900, 1000) if first <= it <= last]
        )
        self.browser.evaluate(
            "(form => { form.elements.first.value = 690; form.elements.last.value = 710; "
            "form.requestSubmit(); })(document.querySelector('.range'))"
        )
        self.assertEqual(self.text(".status"), "Shown: frames 690 to 710 of 2,048")
        self.assert_drawn("resumed", 690, 710)
        self.browser.evaluate("document.querySelector('button.frame').click()")
        self.assertIn("Shown: frames ", self.text(".status"))
        for button in ("in", "out", "earlier", "later", "whole"):
            self.browser.evaluate("document.querySelector('[data-do=%s]').click()" % button)
        self.assert_drawn("resumed", 0, 2048)

    def test_a_click_tells_the_command_that_says_why(self):
        def is_told():
            return self.browser.evaluate("document.querySelector('.answered').checkVisibility()")

        for name, files in (
            ("explained", "explained.json .*explained.txt .*explained.wav"),
            ("take", "1.json 1.txt 1.wav"),
        ):
            self.show(name, 1000)
            self.assertFalse(is_told())
            self.browser.evaluate("document.querySelector('.lane').scrollIntoView()")
            left, top, width, frames = self.browser.evaluate(
                "(box => [box.left, box.top, box.width,"
                " Number(document.querySelector('.wave').dataset.frames)])"
                "(document.querySelector('.lane').getBoundingClientRect())"
            )
            place = left + width * 0.25, top + 20
            self.browser.drag(place, place)
            self.assertTrue(is_told())
            told = self.text(".answered code")
            found = re.fullmatch(rf"tools/report .*{files} --explain (\d+) 0 -o why.html", told)
            self.assertIsNotNone(found, told)
            self.assertAlmostEqual(int(found[1]), frames / 4, delta=frames / width + 1)
            self.browser.evaluate(
                "(form => { form.elements.frame.value = 17; form.requestSubmit(); })"
                "(document.querySelector('.asking'))"
            )
            self.assertTrue(self.text(".answered code").endswith(" --explain 17 0 -o why.html"))
        self.show("compared")
        self.assertFalse(self.browser.evaluate("!!document.querySelector('.asking')"))

    def test_steps_are_opened_by_keys(self):
        self.show("explained", 390)
        count = "[...document.querySelectorAll('.why li')]" \
                ".filter(it => it.checkVisibility()).length"
        before = self.browser.evaluate(count)
        self.browser.evaluate("document.querySelector('.why details:not([open]) summary').focus()")
        self.browser.key("Enter")
        self.assertGreater(self.browser.evaluate(count), before)
        with open(os.path.join(HERE, "probe.js"), encoding="utf-8") as file:
            probe = file.read()
        for width in (390, 1280):
            self.show("explained", width)
            self.browser.evaluate(
                "document.querySelectorAll('.why details').forEach(it => { it.open = true; })"
            )
            self.assertEqual(self.browser.evaluate(probe)["wrong"], [], width)

    def test_the_sound_can_be_played(self):
        for name in ("resumed", "ended", "wide"):
            self.show(name)
            state = self.browser.evaluate(
                """new Promise(done => {
                const it = document.querySelector('audio');
                it.oncanplaythrough = () => done('plays ' + it.duration.toFixed(3));
                it.onerror = () => done(it.error.message);
                it.preload = 'auto';
                it.load();
            })"""
            )
            frames = sound_of(self.sounds[name], "it").frames
            self.assertEqual(state, "plays %.3f" % (frames / 48000), name)

    def test_rows_can_be_chosen_without_scripts(self):
        self.show("refused", scripts=False)
        lines = "[...document.querySelectorAll('.transcript tbody tr:not(.part)')]"
        count = lines + ".filter(it => it.checkVisibility()).length"
        self.assertEqual(self.browser.evaluate(count), 39)
        for choice, rows in ("refusals", 18), ("events", 3), ("all", 39):
            self.browser.evaluate("document.querySelector('.only-%s').click()" % choice)
            self.assertEqual(self.browser.evaluate(count), rows)

    def test_sounds_beside_the_page_are_played_and_drawn(self):
        self.show("beside")
        paths = "[...document.querySelectorAll('.envelope, .other')].map(" \
                "it => it.getAttribute('d'))"
        whole = self.browser.evaluate(paths)
        self.browser.evaluate("document.querySelector('[data-do=in]').click()")
        zoomed = self.browser.evaluate(paths)
        self.assertEqual(len(whole), 6)
        for one, two in zip(whole, zoomed):
            self.assertNotEqual(one, two)
            self.assertGreater(len(self.numbers(two)), 1500)
        seconds = self.browser.evaluate(
            """new Promise((done, fail) => {
            const it = document.querySelector('audio');
            it.oncanplaythrough = () => done(it.duration);
            it.onerror = () => fail(it.error.message);
            it.preload = 'auto';
            it.load();
        })"""
        )
        self.assertEqual(seconds, 5)

    def test_long_pages_are_small(self):
        self.assertLess(os.path.getsize(self.paths["long"]), 5_000_000)
        self.show("long")
        count = self.browser.evaluate("document.querySelectorAll('*').length")
        self.assertLess(count, 3000)
        self.assertIn("13,0", self.text(".rows summary"))

    def test_all_lanes_are_zoomed(self):
        self.show("take")
        boxes = "[...document.querySelectorAll('#part-1 .stretched')].map(" \
                "it => it.viewBox.baseVal.width / it.dataset.width)"
        self.assertTrue(all(it == 1 for it in self.browser.evaluate(boxes)))
        self.browser.evaluate("document.querySelector('#part-1 [data-do=in]').click()")
        widths = self.browser.evaluate(boxes)
        self.assertGreater(len(widths), 0)
        self.assertTrue(all(it == 0.5 for it in widths))
        note = "document.querySelector('#part-1 .note text').textContent"
        self.assertEqual(self.browser.evaluate(note), "c")
        other = "document.querySelector('#part-2 .status').textContent"
        self.assertIn("the whole", self.browser.evaluate(other))

    def stops(self):
        """The places in the list of what keys stop at, as Tab goes from one to the next, once
        around. What has the keys is seen."""
        found = []
        for _ in range(3000):
            self.browser.key("Tab")
            place, is_over, outline, kind = self.browser.evaluate(AT)
            if is_over or (found[1:] and place == found[0]):
                break
            if kind != "audio":  # whose own controls are seen
                self.assertEqual(outline, "solid", (place, kind))
            if found[-1:] != [place]:  # a player has several controls
                found.append(place)
        return found

    def test_keys_reach_each_control_in_the_order_of_the_page(self):
        for name, width in (
            ("take", 390), ("ended", 1280), ("long", 1280), ("compared", 390), ("archive", 1280),
            ("explained", 390),
        ):
            self.show(name, width)
            count = self.browser.evaluate(STOPS)
            self.assertGreaterEqual(count, 2)
            self.assertEqual(self.stops(), list(range(count)), (name, width))

    def test_a_sound_beyond_full_scale_is_drawn_whole(self):
        self.show("beside")
        scales = "[...document.querySelectorAll('.drawing[data-sound=sound]')].map(" \
                 "it => Number(it.dataset.scale))"
        self.assertEqual(self.browser.evaluate(scales), [2, 2])
        highest = "Math.min(...document.querySelector('.other').getAttribute('d')" \
                  ".match(/[V,]-?[\\d.]+/g).map(it => Number(it.slice(1))))"
        wanted = waveform.HEIGHT / 2 - pages_shown.BEYOND / 2 * waveform.REACH
        self.assertAlmostEqual(self.browser.evaluate(highest), wanted, delta=0.11)
        self.browser.evaluate(
            "(form => { form.elements.first.value = 0; form.elements.last.value = 30000; "
            "form.requestSubmit(); })(document.querySelector('.range'))"
        )
        self.assertAlmostEqual(self.browser.evaluate(highest), wanted, delta=0.11)

    def test_boxes_that_are_wider_than_they_show_say_so(self):
        self.show("take", 390)
        count = "document.querySelectorAll('.scroll.overflows').length"
        self.assertGreater(self.browser.evaluate(count), 0)

    def test_folded_parts_are_opened_by_keys(self):
        self.show("long")
        self.browser.evaluate("document.querySelector('.rows summary').focus()")
        self.browser.key("Enter")
        self.assertTrue(self.browser.evaluate("document.querySelector('.rows details').open"))

    def test_names_in_pages_of_takes(self):
        for name in ("take", "long", "silent", "compared", "archive"):
            self.show(name, 390)
            for node in self.browser.call("Accessibility.getFullAXTree")["nodes"]:
                role = node.get("role", {}).get("value")
                if not node["ignored"] and role in NAMED | {"link", "DisclosureTriangle"}:
                    self.assertTrue(node["name"]["value"].strip(), (name, role))

    def test_names_for_screen_readers(self):
        for name in ("resumed", "ended", "fault", "explained"):
            for width in (390, 1280):
                self.show(name, width)
                nodes = self.browser.call("Accessibility.getFullAXTree")["nodes"]
                roles = {}
                for node in nodes:
                    role, title = node.get("role", {}).get("value"), node.get("name", {}).get(
                        "value", ""
                    )
                    if not node["ignored"]:
                        roles.setdefault(role, []).append(title)
                for role in NAMED & set(roles):
                    self.assertTrue(
                        all(title.strip() for title in roles[role]),
                        (name, width, role, roles[role]),
                    )
                self.assertIn("Transcript and calls", roles["heading"])
                self.assertTrue(
                    {"table", "cell", "columnheader", "rowheader"} <= set(roles), roles.keys()
                )
                self.assertIn("Answer", roles["columnheader"], width)


if __name__ == "__main__":
    unittest.main()
