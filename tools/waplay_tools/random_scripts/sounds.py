"""Buffers, and the assets that are decoded into them."""

import os

from waplay_tools import wav, wav_check
from waplay_tools.expecting.sessions import LOOPS
from waplay_tools.random_scripts.kinds import Call, Calls, Link, Sound
from waplay_tools.random_scripts.parameters import Parameters

# Paths at which there is no file, and those that could lead from one that is there to one outside.
NOWHERE = [
    "nowhere.wav",
    "sub/nowhere.wav",
    "/dev/zero",
    "/",
    "..",
    "../beside.wav",
    "./../beside.wav",
    "a0.wav/..",
    "\0",
    "x" * 255,
    "sub" * 60,
    "...",
    "A0.WAV",
]
OUTSIDE = ["/%", "%\0", "sub/../%", "../%", "%/", "%/%"]  # with that file for each %


class Sounds(Parameters):
    """Buffers, and the assets that are decoded into them."""

    def create_buffer(self) -> Call:
        """A buffer. Some are of another rate, and some are such that there cannot be."""
        channels, length, rate = (
            self.rng.choice([1, 1, 2, 2, 4, 6, self.rng.randint(1, 32)]),
            self.frames(),
            self.rate,
        )
        if self.may(0.1):
            rate = self.rng.choice([8000, 44100, 96000])
        if self.may(0.04):
            channels, length, rate = self.rng.choice(
                [
                    (0, length, rate),
                    (33, length, rate),
                    (2**32 - 1, length, rate),
                    (channels, 0, rate),
                    (channels, length, 0),
                    (channels, length, 7999),
                    (channels, length, 96001),
                    (channels, length, 2**32 - 1),
                    (32, 2**22 + 1, rate),
                    (channels, 2**32 - 1, rate),
                    (1, 2**27 + 1, rate),
                ]
            )
        name = self.new_name()
        self.names[name] = Sound(0, 0, False, min(channels, 33), min(length, 1000))
        return self.call(
            "createBuffer",
            [("as", name), ("channels", channels), ("length", length), ("rate", rate)],
        )

    def copy_to_channel(self, name: str | None = None, channel: int | None = None) -> Call:
        """A call that writes a buffer, this one and its channel where they are told. Some reach
        past its end."""
        name = name or self.buffer()
        sound = self.names.get(name)
        channels, length = (sound.channels, sound.length) if isinstance(sound, Sound) else (1, 3)
        if channel is None:
            channel = self.rng.randrange(max(1, channels))
            if self.may(0.05):
                channel = self.rng.choice([0, channels, channels + 1, 2**32 - 1])
        samples = [
            self.fix()
            for _ in range(self.rng.choice([0, 1, 3, length, length, length, length + 2]))
        ]
        at = (
            self.rng.randint(0, length + 1)
            if self.may(0.9)
            else self.rng.choice([0, length, 2**32 - 1])
        )
        call = self.call(
            "copyToChannel", [("buffer", name), ("channel", channel), ("samples", samples)]
        )
        if self.may(0.3):
            call["at"] = at
        return call

    def create_response(self) -> Calls:
        """A buffer of one channel that is written for a convolver, in pieces now and then. Some are
        of another rate, some longer than what is written, and few as long as one may be or longer.
        """
        samples, name = self.response(), self.new_name()
        length = len(samples) + self.rng.choice([0, 0, 0, 0, self.rng.randint(0, 200)])
        if self.may(0.04):
            length = 2**14 + self.rng.choice([-1, 0, 0, 1, 1, 2**14])
        self.names[name] = Sound(0, 0, False, 1, min(length, 1000))
        shape = {"channels": 1, "length": length, "rate": self.rate}
        if self.may(0.04):
            shape["rate"] = self.rng.choice([8000, 44100, 96000])
        cut = self.rng.randint(0, len(samples)) if self.may(0.2) else 0
        written: Call = {"op": "copyToChannel", "buffer": name, "channel": 0}
        calls: Calls = [
            {"op": "createBuffer", "as": name, **shape},
            {**written, "samples": samples[cut:], "at": cut},
        ]
        return calls + ([{**written, "samples": samples[:cut]}] if cut else [])

    def set_buffer(self) -> Call:
        """A call that gives a buffer source a buffer, or takes it away."""
        return self.call(
            "setBuffer",
            [("node", self.player()), ("buffer", None if self.may(0.3) else self.buffer())],
        )

    def set_loop(self) -> Call:
        """A call that sets a part of a buffer source's loop."""
        op = self.rng.choice(list(LOOPS))
        value = self.may(0.7) if op == "setLoop" else self.loop_point(self.frames())
        return self.call(op, [("node", self.player()), ("value", value)])

    def decode(self, is_good: bool = False) -> Call:
        """A call that decodes an asset; with this, one of the context's rate that is likely
        read."""
        path, name = self.asset(is_good), self.new_name()
        if isinstance(self.assets.get(path), bytes) or self.may(0.1):
            self.names[name] = Sound(0, 0, False, 2, 20)
        return self.call("decodeAudioData", [("as", name), ("path", path)])

    def new_path(self) -> str:
        """A path at which nothing stands yet, in the folder or in one below it."""
        return "%s%d%s" % (
            self.rng.choice(["a", "a", "sub/a", "sub/sub/a", "\u00e9 ", "..a", "x" * 200]),
            len(self.assets),
            self.rng.choice([".wav", ".wav", "", "..", "."]),
        )

    def asset(self, is_good: bool = False) -> str:
        """A path. Mostly a WAV file stands there, which is made with it or was before."""
        rng, path = self.rng, self.new_path()
        files = [it for it, data in self.assets.items() if isinstance(data, bytes)] or ["a0.wav"]
        some = 0 if is_good else rng.randint(0, 199)
        if some < 90:
            self.assets[path] = self.wav()
        elif some < 120:  # one that is there, mostly
            path = rng.choice(files)
            return rng.choice([path, path, "./" + path, path.replace("/", "//"), "././" + path])
        elif some < 140:
            self.assets[path] = wav_check.mutated(rng, self.wav())
        elif some < 148:  # of two rates
            self.assets[path] = wav_check.made_by_hand(rng)
        elif some < 154:
            self.assets[path] = rng.choice([b"", b"RIFF", rng.randbytes(60), self.wav() * 2])
        elif some < 160:  # a link is followed wherever it leads
            target = (
                rng.choice(files) if self.may(0.7) else rng.choice(["nowhere", "../beside.wav"])
            )
            self.assets[path] = Link("../" * path.count("/") + target)
        elif some < 195:  # a path that names no file, or could name one outside
            outside = rng.choice(files)
            return rng.choice([*NOWHERE, *(form.replace("%", outside) for form in OUTSIDE)])
        elif some < 197:
            self.assets[path] = rng.choice([2**26 + 1, 2**26 + 1, 2**26, 2**28])
        else:  # what cannot be read: a folder, and a link to itself
            if self.may(0.2):
                return rng.choice([".", "./"])
            self.assets[path] = None if self.may(0.7) else Link(os.path.basename(path))
        return path

    def wav(self) -> bytes:
        """A WAV file of the context's rate. Some have other chunks, or data that is cut."""
        rng = self.rng
        if self.may(0.3):
            return wav_check.made_by_hand(rng, self.rate)
        bits = rng.choice([8, 16, 24, 32])
        channels = rng.choice([1, 1, 2, 2, 4, 6, rng.randint(1, 32)])
        low = 2 ** (bits - 1)
        most = low if self.may(0.3) else low // 16  # mostly quiet: sums stay within the range
        values = [rng.randint(-most, most - 1) for _ in range(channels * self.frames())]
        samples = [
            (value + low if bits == 8 else value % 2**bits).to_bytes(bits // 8, "little")
            for value in values
        ]
        return wav.file_of(wav.Form(channels, self.rate, bits), b"".join(samples))

    def some_buffers(self) -> Calls:
        """Buffers that sources can play, made and written, or decoded."""
        calls = []
        for _ in range(self.rng.randint(1, 4)):
            if self.has_assets and self.may(0.4):
                calls.append(self.decode(self.may(0.8)))
                continue
            calls.append(self.create_buffer())
            name = calls[-1]["as"]
            sound = self.names[name]
            channels = sound.channels if isinstance(sound, Sound) else 0
            calls += [
                self.copy_to_channel(name, channel)
                for channel in range(min(32, channels))
                if self.may(0.9)
            ]
        return calls
