"""Tolerances as people write them on a command line."""

import argparse
import re


def tolerance(text: str) -> float:
    """What samples may differ by, as 0.001 or 2^-16: from 0 to 2, as a part of 1."""
    power = re.fullmatch(r"2\^(-\d{1,3})", text)
    try:
        value = 2.0 ** int(power[1]) if power else float(text)
    except ValueError:
        value = -1.0
    if not 0 <= value <= 2:
        raise argparse.ArgumentTypeError(f"{text} is no difference from 0 to 2, as 0.001 or 2^-16")
    return value
