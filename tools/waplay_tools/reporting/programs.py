"""Why the program of a processor was refused, for the person who wrote it."""

from collections.abc import Sequence

from waplay_tools.expecting.programs import (
    CELLS,
    DEEPEST,
    LONGEST,
    NUMBERS,
    STACK,
    Check,
    Instruction,
    Wrong,
    code_of,
)
from waplay_tools.reporting.text import counted, grouped


def _listed(numbers: Sequence[int]) -> str:
    """The numbers in one list."""
    texts = [grouped(number) for number in numbers]
    return " and ".join(filter(None, [", ".join(texts[:-1]), texts[-1]]))


def _ways(heights: Sequence[int]) -> str:
    """That ways lead to one place which leave these heights of the stack."""
    many = {2: "two", 3: "three"}.get(len(heights), grouped(len(heights)))
    values = "value" if heights[-1] == 1 else "values"
    return f"{many} ways lead here with {_listed(heights)} {values} on the stack"


def _of_instruction(check: Check, place: int, reason: str, height: int) -> str:
    """What is wrong with the instruction at a place at which the stack has this height."""
    word, number = check.code[place]
    popped, pushed = STACK[word]
    farthest, end = max(check.following(place)), len(check.code)
    return {
        "BadCell": f"there is no cell {grouped(number)}: a channel has the cells 0 to {CELLS - 1}",
        "BadDivisor": "nothing is divided by 0",
        "BadJump": f"it may go on at place {grouped(farthest)}, behind the end, {grouped(end)}",
        "Underflow": f"it takes {counted(popped, 'value')} from the stack, which has {height}",
        "TooDeep": f"the stack would have {height - popped + pushed} values, and has {DEEPEST}"
        " at most",
    }[reason]


def _written(instruction: Instruction) -> str:
    """An instruction in a sentence."""
    word, number = instruction
    return f"`{word} {number}`" if word in NUMBERS else f"`{word}`"


def _told(check: Check, wrong: Wrong) -> str:
    """Why the program is not accepted, in one sentence."""
    reason, number, heights = wrong
    if reason == "BadLength":
        has = counted(number, "instruction") if number else "none"
        return f"A program has from 1 to {LONGEST} instructions, and this one has {has}."
    if reason == "BadEnd":
        return f"At the end the stack has {counted(number, 'value')}, and not the one to give."
    at = f"Place {grouped(number)}"
    if number == len(check.code):
        at += ", the end"
    else:
        at += f", {_written(check.code[number])}"
    if reason == "Unreached":
        return f"{at}: no earlier place goes on here."
    if reason == "Uneven":
        return f"{at}: {_ways(heights)}."
    return f"{at}: {_of_instruction(check, number, reason, heights[0])}."


def why(texts: Sequence[str]) -> str:
    """Why a program is not accepted whose instructions a script has written so, in one sentence;
    an empty text where it is accepted. Places are counted from 0."""
    check = Check(code_of(texts))
    wrong = check.wrong()
    return _told(check, wrong) if wrong else ""
