"""Changes of bytes, told by whole numbers: cut, doubled, swapped, put in, changed."""

from collections.abc import Callable

# What is put in: parts of JSON, and bytes that are no UTF-8.
PIECES = [
    *(b'"', b"\\", b"{", b"}", b"[", b"]", b",", b":", b"-", b"0", b"9", b".", b"e", b" ", b"\n"),
    *(b"\0", b"\xff", b"\x80", b"\xed\xa0\x80", b"\xef\xbb\xbf", b"\xf4\x90\x80\x80", b"\xc0\x80"),
    *(b"\\ud800", b"\\u0000", b"1e400", b"null", b"[" * 127, b"9" * 30, b"/**/", b"\x1b", b"'"),
]

Change = Callable[[bytes, int, int, int], bytes]


def _cut(data: bytes, at: int, _: int, __: int) -> bytes:
    return data[:at]


def _left_out(data: bytes, at: int, length: int, _: int) -> bytes:
    return data[:at] + data[at + length :]


def _doubled(data: bytes, at: int, length: int, _: int) -> bytes:
    return data[: at + length] + data[at:]


def _swapped(data: bytes, at: int, length: int, what: int) -> bytes:
    middle, end = at + length, at + length + 1 + what % 40
    return data[:at] + data[middle:end] + data[at:middle] + data[end:]


def _put_in(data: bytes, at: int, _: int, what: int) -> bytes:
    return data[:at] + PIECES[what % len(PIECES)] + data[at:]


def _changed(data: bytes, at: int, _: int, what: int) -> bytes:
    return data[:at] + bytes([what % 256]) + data[at + 1 :]


def _turned(data: bytes, at: int, _: int, what: int) -> bytes:
    turned = bytes(it ^ 1 << what % 8 for it in data[at : at + 1])
    return data[:at] + turned + data[at + 1 :]


def _alike(data: bytes, at: int, _: int, what: int) -> bytes:
    """Another digit for a digit, and another letter for a letter, which mostly leaves JSON."""
    byte = data[at : at + 1]
    other = b"%d" % (what % 10) if byte.isdigit() else bytes([97 + what % 26])
    return data[:at] + other + data[at + 1 :] if byte.isalnum() else data


CHANGES: list[Change] = [_changed, _turned, _put_in, _left_out, _doubled, _swapped, _cut]
CHANGES += [_alike] * 5


def change(data: bytes, change_number: int, where: int, length: int, what: int) -> bytes:
    """The bytes with a change, which concerns so many of them."""
    at = where % (len(data) + 1)
    return CHANGES[change_number % len(CHANGES)](data, at, length, what)
