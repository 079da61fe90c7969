"""Works out what 5,000 random delays make of random samples: a second calculation, apart from the
crates' own.

It follows the rules of docs/PROFILE.md for delays in the plainest way: a delay keeps all that its
writer wrote since its birth, and each sample is looked up by itself. Only the random numbers are
made as the tests make them. It needs Python 3 and nothing else.

The digest is that which crates/effect_tests/src/delay_digests.rt is to give too.
"""

import collections

from waplay_tools import digests
from waplay_tools.digests import Cases, mixed

# Which channel each channel repeats where loudspeakers are mixed up; all other pairs keep their
# channels.
SPEAKERS: dict[tuple[int, int], tuple[int | None, ...]] = {
    (1, 2): (0, 0),
    (1, 4): (0, 0, None, None),
    (1, 6): (None, None, 0, None, None, None),
    (2, 4): (0, 1, None, None),
    (2, 6): (0, 1, None, None, None, None),
    (4, 6): (0, 1, None, None, 2, 3),
}


def mixed_up(frame: list[int], to: int, is_discrete: bool) -> list[int]:
    """A frame of channels on at least as many: repeated as loudspeakers are, or else in their
    places with zeros behind them."""
    kept = tuple(c if c < len(frame) else None for c in range(to))
    row = kept if is_discrete else SPEAKERS.get((len(frame), to), kept)
    return [0 if c is None else frame[c] for c in row]


class Delay:
    """A delay that keeps all that was written, and says of each frame whether one of its capacity,
    which writes blocks of so many frames, would still have it."""
    def __init__(self, capacity: int, block: int) -> None:
        self.capacity, self.block = capacity, block
        self.frames: list[list[int]] = []
        self.most = 1

    def write(self, samples: list[int], channels: int) -> None:
        """Appends a block of so many channels, whose samples stand channel by channel."""
        for k in range(self.block):
            self.frames.append([samples[c * self.block + k] for c in range(channels)])
        self.most = max(self.most, channels)

    def has(self, f: int, delay: int) -> bool:
        """Whether a read at frame f with this delay finds what it asks for; before the birth it
        always does."""
        written, g = len(self.frames), f - delay
        return g < 0 or g < written <= g + self.capacity + self.block

    def read(
        self, channels: int, first: int, delays: list[int], is_discrete: bool, counts: Cases
    ) -> list[int] | None:
        """The samples of each channel in turn, or None where the delay does not keep what is asked
        for."""
        if not all(self.has(first + k, d) for k, d in enumerate(delays)):
            return None
        block = []
        for k, d in enumerate(delays):
            g = first + k - d
            frame = self.frames[g] if g >= 0 else []
            counts["before birth"] += g < 0
            counts["mixed up"] += 0 < len(frame) < channels
            block.append(mixed_up(frame, channels, is_discrete) if g >= 0 else [0] * channels)
        return [frame[c] for c in range(channels) for frame in block]


def sample(random: digests.Random) -> int:
    """A sample from the whole range, an even one."""
    return random.below(2**31) * 2 - 2**31


def delays_of(random: digests.Random, least: int, capacity: int) -> list[int]:
    """The delays of 16 frames, from a least one on: all alike, which may be longer than is kept, or
    each by itself."""
    delays = [least + random.below(capacity + 4)] * 16
    if random.below(2) == 0:
        delays = [least + random.below(capacity + 1) for _ in range(16)]
    return delays


def read(
    delay: Delay, random: digests.Random, digest: int, first: int, least: int, counts: Cases
) -> int:
    """The digest with one block that is read of a delay, from this frame on and with no shorter
    delays than the least."""
    delays = delays_of(random, least, delay.capacity)
    is_discrete = random.below(3) == 0
    channels = max(delay.most, 1 + random.below(6))
    samples = delay.read(channels, first, delays[: delay.block], is_discrete, counts)
    counts["read" if samples is not None else "not read"] += 1
    if samples is None:
        return mixed(digest, 0)
    digest = mixed(digest, 1)
    for value in samples:
        digest = mixed(digest, value + 2**31)
    return digest


def one_delay(random: digests.Random, digest: int, counts: Cases) -> int:
    """The digest with all that one delay gives over 12 blocks; in a cycle each is read before it is
    written."""
    capacity = random.below(41)
    block = 1 + random.below(16)
    delay = Delay(capacity, block)
    digest = mixed(digest, capacity)
    in_cycle = random.below(2) == 0
    for _ in range(12):
        first = len(delay.frames)
        if in_cycle:
            digest = read(delay, random, digest, first, block, counts)
        channels = (1, 1, 2, 2, 4, 6)[random.below(6)]
        samples = [sample(random) for _ in range(96)]
        delay.write(samples, channels)
        if not in_cycle:
            digest = read(delay, random, digest, first, 0, counts)
    return digest


def main() -> None:
    """Prints the digest, or how often each case came up."""
    is_counted = digests.is_counted("tools/delays", __doc__)
    random = digests.Random(2026)
    digest = digests.EMPTY
    counts: Cases = collections.Counter()
    for _ in range(5_000):
        digest = one_delay(random, digest, counts)
    digests.tell(digest, counts, is_counted)


if __name__ == "__main__":
    main()
