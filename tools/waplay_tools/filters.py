"""Works out what 10,000 random IIR filters and as many wave shapers make of random samples: a
second calculation, apart from the crates' own.

It follows the rules of docs/PROFILE.md for the two kinds in the plainest way: a filter keeps all
frames since its birth, and each sum is taken over all of them. Only the random numbers are made as
the tests make them. It needs Python 3 and nothing else.

The digest is that which crates/effect_tests/src/causal_digests.rt is to give too.
"""

import collections

from waplay_tools import digests
from waplay_tools.digests import GREATEST, LEAST, Cases, mixed, rounded


class Samples(digests.Random):
    """Random samples and coefficients."""

    def sample(self) -> int:
        """A sample: mostly from -2.0 to 2.0, at times 0 or an end of the range."""
        kind = self.below(40)
        if kind < 2:
            return (LEAST, GREATEST)[kind]
        return 0 if kind < 6 else self.below(2**26 + 1) - 2**25

    def coefficient(self) -> int:
        """A coefficient: half of them an end of the range, 0, 1.0 or -1, others a power of two or
        from -2.0 to 2.0."""
        kind = self.below(12)
        if kind < 6:
            return (LEAST, GREATEST, 0, 0, 2**24, -1)[kind]
        return 2 ** self.below(31) if kind < 8 else self.below(2**26 + 1) - 2**25

    def coefficients(self) -> list[int]:
        """As many coefficients as a list may be given, and one too many."""
        return [self.coefficient() for _ in range(21)]

    def divisor(self, first: int) -> int:
        """What the first coefficient of the feedback becomes: mostly itself, else a large one of
        either sign."""
        return (2**30, -1_000_000_007, first, first)[self.below(4)]

    def samples(self) -> list[int]:
        """A block of 32 samples."""
        return [self.sample() for _ in range(32)]

    def count(self) -> int:
        """How long a list of coefficients is: mostly 1 to 20, at times 0 or 21."""
        kind = self.below(24)
        return (0, 21)[kind] if kind < 2 else 1 + self.below(20)


def filter_refusal(forward: list[int], back: list[int]) -> str | None:
    """The exception with which a filter of these coefficients is refused, if it is."""
    if not (1 <= len(forward) <= 20 and 1 <= len(back) <= 20):
        return "NotSupportedError"
    if not any(forward) or back[0] == 0:
        return "InvalidStateError"
    return None


def curve_refusal(curve: list[int] | None, was_set: bool) -> str | None:
    """The exception with which a curve is refused, if it is, where one was set before or not."""
    if curve is not None and (len(curve) < 2 or was_set):
        return "InvalidStateError"
    return None


class Filter:
    """An IIR filter that keeps every input and output of each channel that it has heard."""
    def __init__(self, forward: list[int], back: list[int]) -> None:
        self.forward, self.back = forward, back
        self.inputs: dict[int, list[int]] = {}  # by channel
        self.outputs: dict[int, list[int]] = {}

    def hear(self, channel: int, x: int, born: int) -> int:
        """One frame of a channel, which has heard so many frames of 0 before it was there."""
        inputs = self.inputs.setdefault(channel, [0] * born)
        outputs = self.outputs.setdefault(channel, [0] * born)
        inputs.append(x)
        n = len(inputs) - 1
        total = sum(b * inputs[n - m] for m, b in enumerate(self.forward) if m <= n)
        total -= sum(a * outputs[n - k] for k, a in enumerate(self.back) if 1 <= k <= n)
        divisor = self.back[0]
        if divisor < 0:
            total, divisor = -total, -divisor
        outputs.append(max(LEAST, min(GREATEST, rounded(total, divisor))))
        return outputs[-1]


class Shaper:
    """A wave shaper with this curve, or with none."""
    def __init__(self, curve: list[int] | None) -> None:
        self.curve = curve

    def hear(self, _channel: int, x: int, _born: int) -> int:
        """What a sample becomes; it hangs on no other one, and on no channel."""
        if self.curve is None:
            return x
        at = x + 2**24
        if at <= 0:
            return self.curve[0]
        if at >= 2**25:
            return self.curve[-1]
        way = (len(self.curve) - 1) * at
        k = way // 2**25
        rise = self.curve[k + 1] - self.curve[k]
        return self.curve[k] + rounded(rise * (way - k * 2**25), 2**25)


def with_samples(digest: int, samples: list[int]) -> int:
    """The digest with these samples behind what it has."""
    for sample in samples:
        digest = mixed(digest, sample + 2**31)
    return digest


def played(state: Filter | Shaper, random: Samples, digest: int, counts: Cases) -> int:
    """The digest with what a filter or a shaper gives: one channel for 16 frames, two for 16 more,
    then five frames by themselves."""
    outputs: list[int] = []
    x = random.samples()
    outputs += [state.hear(0, x[k], 0) for k in range(16)]
    x = random.samples()
    outputs += [state.hear(c, x[16 * c + k], 16) for c in range(2) for k in range(16)]
    for _ in range(5):
        outputs += [state.hear(c, random.sample(), 16) for c in range(2)]
    if isinstance(state, Filter):
        counts["outputs of filters"] += len(outputs)
        counts["saturated outputs"] += sum(y in (LEAST, GREATEST) for y in outputs)
    return with_samples(digest, outputs)


REFUSALS = (None, "NotSupportedError", "InvalidStateError")


def one_filter(random: Samples, digest: int, counts: Cases) -> int:
    """The digest with one filter: its refusal, or what it gives."""
    forward, back = random.coefficients(), random.coefficients()
    back[0] = random.divisor(back[0])
    forward = forward[: random.count()]
    back = back[: random.count()]
    refusal = filter_refusal(forward, back)
    counts["filter", refusal] += 1
    digest = mixed(digest, REFUSALS.index(refusal))
    return digest if refusal else played(Filter(forward, back), random, digest, counts)


def one_shaper(random: Samples, digest: int, counts: Cases) -> int:
    """The digest with one wave shaper: its refusal, or what it gives."""
    points = random.samples()
    count = random.below(7)
    curve = None if random.below(8) == 0 else points[:count]
    refusal = curve_refusal(curve, random.below(16) == 0)
    counts["shaper", refusal] += 1
    digest = mixed(digest, REFUSALS.index(refusal))
    return digest if refusal else played(Shaper(curve), random, digest, counts)


def main() -> None:
    """Prints the digest, or how often each case came up."""
    is_counted = digests.is_counted("tools/filters", __doc__)
    random = Samples(2025)
    digest = digests.EMPTY
    counts: Cases = collections.Counter()
    for _ in range(10_000):
        digest = one_filter(random, digest, counts)
        digest = one_shaper(random, digest, counts)
    digests.tell(digest, counts, is_counted)


if __name__ == "__main__":
    main()
