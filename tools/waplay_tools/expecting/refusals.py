"""The refusals of calls."""


class Refused(Exception):
    """A call that is refused, with the exception's text."""


def profile(feature: str) -> Refused:
    """The refusal of what the profile leaves out, with the feature's word in its text."""
    return Refused("NotSupportedError profile:" + feature)
