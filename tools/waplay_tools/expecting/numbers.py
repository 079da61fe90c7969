"""Numbers and mixing, by the rules of docs/PROFILE.md. A block has one value for each frame of a
quantum."""

import functools
import math
from collections.abc import Callable, Sequence

ONE = 2**24
HALF, QUARTER = ONE // 2, ONE // 4
FIX = -(2**31), 2**31 - 1  # the ends of the range of values
QUANTA = 32, 64, 128, 256, 512, 1024  # how many frames a quantum may have
DEFAULT_QUANTUM = 128  # where the context does not say it

Block = Sequence[int]
Blocks = Sequence[Block]  # of each channel its block


@functools.cache
def silence(frames: int) -> Block:
    """The block of so many frames that is silent. It is the same one each time."""
    return (0,) * frames


def is_silence(block: Block) -> bool:
    """Whether this is that block. One that became 0 otherwise is not."""
    return block is silence(len(block))


def rounded_quotient(a: int, b: int) -> int:
    """The whole number nearest to a / b, for a positive b; a half goes up."""
    return (2 * a + b) // (2 * b)


def saturated(x: int) -> int:
    """The value nearest to a number that may be out of the range of values."""
    return max(FIX[0], min(FIX[1], x))


def bounded(block: Block, low: int, high: int) -> Block:
    """The block, where each value that is out of this range is the end of the range that is next to
    it."""
    if low <= min(block) and max(block) <= high:
        return block
    return [max(low, min(high, x)) for x in block]


def products(block: Block, levels: Block) -> Block:
    """What becomes of a block by a gain of these levels: the rounded quotients of the products and
    1.0, in the range of values."""
    if is_silence(block):
        return block
    return bounded([(x * g + HALF) // ONE for x, g in zip(block, levels)], *FIX)


def summed(blocks: list[Block], frames: int) -> Block:
    """The exact sum of blocks of so many frames, saturated once; silence where there is none.
    Silent ones add nothing."""
    blocks = [block for block in blocks if not is_silence(block)] or [silence(frames)]
    total = blocks[0] if len(blocks) == 1 else [sum(values) for values in zip(*blocks)]
    return bounded(total, *FIX)


def samples_of_channel(values: Sequence[int], bits: int) -> Block:
    """The samples of a file with so many bits that rendered values become: their rounded quotients
    by a step, in the range of samples."""
    step, end = 2 ** (25 - bits), 2 ** (bits - 1)
    return bounded([(value + step // 2) // step for value in values], -end, end - 1)


def sample_of(value: int, bits: int = 24) -> int:
    """The same of one value."""
    return samples_of_channel([value], bits)[0]


# Mixing. The equations are those of the recommendation's "Channel Up-Mixing and Down-Mixing", for
# speakers. That of a pair of counts takes as many channels as the first, and gives as many as the
# second, times 2^24.

ROOT_HALF = math.isqrt(2**47)  # the root is 11,863,283.2: this is the nearest whole number

EQUATIONS: dict[tuple[int, int], Callable[..., list[int]]] = {
    (1, 2): lambda m: [ONE * m, ONE * m],
    (1, 4): lambda m: [ONE * m, ONE * m, 0, 0],
    (1, 6): lambda m: [0, 0, ONE * m, 0, 0, 0],
    (2, 4): lambda left, right: [ONE * left, ONE * right, 0, 0],
    (2, 6): lambda left, right: [ONE * left, ONE * right, 0, 0, 0, 0],
    (4, 6): lambda left, right, sl, sr: [ONE * left, ONE * right, 0, 0, ONE * sl, ONE * sr],
    (2, 1): lambda left, right: [HALF * (left + right)],
    (4, 1): lambda left, right, sl, sr: [QUARTER * (left + right + sl + sr)],
    (6, 1): lambda left, right, c, lfe, sl, sr: [
        ROOT_HALF * (left + right) + ONE * c + HALF * (sl + sr)
    ],
    (4, 2): lambda left, right, sl, sr: [HALF * (left + sl), HALF * (right + sr)],
    (6, 2): lambda left, right, c, lfe, sl, sr: [
        ONE * left + ROOT_HALF * (c + sl),
        ONE * right + ROOT_HALF * (c + sr),
    ],
    (6, 4): lambda left, right, c, lfe, sl, sr: [
        ONE * left + ROOT_HALF * c,
        ONE * right + ROOT_HALF * c,
        ONE * sl,
        ONE * sr,
    ],
}


def mixed(channels: list[int], count: int, interpretation: str) -> list[int]:
    """Channels mixed to so many. Where there is no equation, each stays in its place: those that
    are too many are dropped, and those that are missing are 0."""
    equation = EQUATIONS.get((len(channels), count))
    if interpretation == "discrete" or equation is None:
        return (channels + [0] * count)[:count]
    return [rounded_quotient(sum_of_products, ONE) for sum_of_products in equation(*channels)]


@functools.lru_cache(maxsize=None)
def moved(several: int, count: int, interpretation: str) -> list[int | None] | None:
    """Where mixing so many channels to a count leaves each of them as it is: of each channel that
    comes of it, which one it is, or None where it is silent. Elsewhere it is None as a whole."""
    alone = [
        mixed([ONE if c == one else 0 for c in range(several)], count, interpretation)
        for one in range(several)
    ]
    parts = [[one for one in range(several) if alone[one][c] != 0] for c in range(count)]
    if any(len(part) > 1 or part and alone[part[0]][c] != ONE for c, part in enumerate(parts)):
        return None
    return [part[0] if part else None for part in parts]


def mixed_blocks(blocks: Blocks, count: int, interpretation: str) -> Blocks:
    """The same of channels that are blocks."""
    places = moved(len(blocks), count, interpretation)
    if places is not None:
        silent = silence(len(blocks[0]))
        return [silent if place is None else blocks[place] for place in places]
    return list(zip(*(mixed(list(frame), count, interpretation) for frame in zip(*blocks))))


def computed_count(mode: str, channel_count: int, counts: list[int]) -> int:
    """How many channels an input has, whose connections have these counts."""
    greatest = max(counts, default=1)
    return {
        "max": greatest,
        "clamped-max": min(greatest, channel_count),
        "explicit": channel_count,
    }[mode]
