"""Random programs of processors, as a script writes them. About half of them are accepted."""

import random

from waplay_tools.expecting.programs import CELLS, DEEPEST, LONGEST, NUMBERS, STACK, Instruction
from waplay_tools.random_scripts.kinds import FIX, ONE

HIGHEST = 2**31 - 1  # of a number that has no sign
LENGTHS = [1, 2, 3, 5, 8, 8, 12, 12, 20, 20, 40, 60]
OFTEN = {"in": 8, "load": 4, "store": 3, "add": 3, "sub": 3, "mul": 3, "drop": 1}  # or else 2
JUMPS = ("skip", "skipz")


def text_of(instruction: Instruction) -> str:
    """An instruction as a script writes it."""
    word, number = instruction
    return f"{word} {number}" if word in NUMBERS else word


def number_for(rng: random.Random, word: str) -> int:
    """The number of an instruction that does not jump."""
    if word not in NUMBERS:
        return 0
    if word in ("load", "store"):
        return rng.choice([0, 0, 0, 1, 1, 2, 3, CELLS - 1, rng.randrange(CELLS)])
    if word == "div":
        return rng.choice([1, 2, 2, 3, 4, 7, 10, 256, ONE, HIGHEST, rng.randint(1, HIGHEST)])
    ends = [0, 1, -1, 2, 3, ONE, -ONE, ONE // 2, ONE - 1, *FIX]
    return rng.choice(ends) if rng.random() < 0.5 else rng.randint(-ONE, ONE)


class Walk:
    """A program that is made from its first place to its end, and is accepted. The stack's height
    is known, and the heights that jumps have promised for places to come; the end's is 1. From a
    place to the next one it goes up or down by one at most, so that a promise can be kept where
    there are places enough before it."""

    def __init__(self, rng: random.Random, length: int, deepest: int) -> None:
        self.rng, self.length, self.deepest = rng, length, deepest
        self.height = 0
        self.promised = {length: 1}  # of places their heights

    def is_kept(self, place: int, height: int) -> bool:
        """Whether the next promise can be kept, where a place has this height."""
        there = min(it for it in self.promised if it >= place)
        gap = abs(self.promised[there] - height)
        return 0 <= height <= self.deepest and gap <= there - place

    def target(self, place: int, height: int, following: int) -> int | None:
        """A place to which a jump may go that leaves this height; the place behind the jump has the
        height that follows."""
        known = {**self.promised, place + 1: following}
        last = self.length if self.rng.random() < 0.1 else min(self.length, place + 12)
        there = self.rng.randint(place + 1, last)
        if there in known:
            return there if known[there] == height else None
        before = max(it for it in known if place < it < there)
        after = min(it for it in known if it > there)
        is_near = abs(known[before] - height) <= there - before
        return there if is_near and abs(known[after] - height) <= after - there else None

    def jump(self, place: int) -> Instruction | None:
        """A jump that can stand here; none is tried at most places, and some fail."""
        some, left = self.rng.random(), self.promised.get(place + 1)
        if left is not None and some < 0.4:  # the place behind it is reached by another jump
            word, height, following = "skip", self.height, left
        elif self.height > 0 and self.is_kept(place + 1, self.height - 1) and some < 0.5:
            word, height, following = "skipz", self.height - 1, self.height - 1
        else:
            return None
        there = self.target(place, height, following)
        if there is None:
            return None
        self.promised[there], self.height = height, following
        return Instruction(word, there - place - 1)

    def step(self, place: int) -> Instruction:
        """An instruction that can stand here and does not jump, or a jump to the next place."""
        words = [
            word
            for word, (popped, pushed) in STACK.items()
            if word not in JUMPS
            and popped <= self.height
            and self.is_kept(place + 1, self.height - popped + pushed)
        ]
        if not words:
            return Instruction("skip")
        word = self.rng.choices(words, [OFTEN.get(it, 2) for it in words])[0]
        popped, pushed = STACK[word]
        self.height += pushed - popped
        return Instruction(word, number_for(self.rng, word))

    def code(self) -> list[Instruction]:
        """The program."""
        return [self.jump(place) or self.step(place) for place in range(self.length)]


def walked(rng: random.Random) -> list[Instruction]:
    """A program that is accepted. Some are as long as one may be, and some use all of the stack."""
    length = LONGEST if rng.random() < 0.02 else rng.choice(LENGTHS)
    return Walk(rng, length, rng.choice([2, 3, 4, 8, DEEPEST])).code()


def any_instruction(rng: random.Random) -> Instruction:
    """An instruction that was not looked for to fit anywhere."""
    word = rng.choice(list(STACK))
    number = rng.choice([0, 0, 1, 1, 2, 3, 5, 9, HIGHEST])
    return Instruction(word, number if word in JUMPS else number_for(rng, word))


def broken(rng: random.Random) -> list[Instruction]:
    """Instructions of which one has a number that it may not have, or that are too many for the
    stack."""
    cell = rng.choice([CELLS, CELLS, CELLS + 1, HIGHEST])
    return rng.choice(
        [
            [Instruction("load", cell)],
            [Instruction("in"), Instruction("store", cell)],
            [Instruction("div", 0)],
            [Instruction("in"), Instruction("div", 0)],
            [Instruction("in")] * (DEEPEST + 1),
            [Instruction("in"), *[Instruction("dup")] * DEEPEST],
        ]
    )


def mutated(rng: random.Random, code: list[Instruction]) -> list[Instruction]:
    """A program with one change, by which mostly it is not accepted any more."""
    place, some = rng.randrange(len(code)), rng.randint(0, 19)
    jumps = [at for at, it in enumerate(code) if it.word in JUMPS]
    if jumps and some < 6:  # one goes a little farther, or less far
        place = rng.choice(jumps)
        word, number = code[place]
        changed = max(0, number + rng.choice([-1, -1, 1, 1, 2, LONGEST]))
        return [*code[:place], Instruction(word, changed), *code[place + 1 :]]
    if some < 9:
        return [*code[:place], any_instruction(rng), *code[place + 1 :]]
    if some < 12:
        return [*code[:place], any_instruction(rng), *code[place:]]
    if some < 14:
        return [*code[:place], *code[place + 1 :]]
    if some < 16:
        return [*code[:place], *code[place + 1 :], code[place]]
    if some < 19:
        return [*code[:place], *broken(rng), *code[place:]]
    return (code * LONGEST)[: LONGEST + rng.choice([1, 1, 2, 100])]


def written_one(rng: random.Random, instruction: Instruction) -> str:
    """An instruction as a script may write it, now and then with zeros in front of its number."""
    text = text_of(instruction)
    word, space, number = text.partition(" ")
    if not space or rng.random() >= 0.02:
        return text
    if number == "0" and word == "push":
        return "push -0"
    return f"{word} -00{number[1:]}" if number.startswith("-") else f"{word} 00{number}"


def written(rng: random.Random, code: list[Instruction]) -> list[str]:
    """A program as a script may write it."""
    return [written_one(rng, it) for it in code]


def good_code(rng: random.Random) -> list[str]:
    """A program that is accepted."""
    return written(rng, walked(rng))


def any_code(rng: random.Random) -> list[str]:
    """A program: one that is accepted, one that was and has a change, or any instructions."""
    some = rng.random()
    if some < 0.05:
        made = [any_instruction(rng) for _ in range(rng.choice([0, 1, 2, 3, 5, 9]))]
    else:
        made = walked(rng)
        made = mutated(rng, made) if some < 0.55 else made
    return written(rng, made)
