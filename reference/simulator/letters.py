"""What one process tells another one over a wire: a frame as it is, or a letter behind its mark.

Every text that begins with 0 to 191 is a frame. A letter's mark is 193 to 199, and no other text is one. Behind the mark
stand numbers of four or eight bytes, big-endian, bytes that say yes or no by 1 or 0, and in some what the letter brings.
"""
from .tags import big_endian

FIRST_MARK = 192
# The name and what stands behind the mark: a number's length, "?" for yes or no, "*" for all that is left.
LETTERS = {
    193: ("passed", ["*"]),
    194: ("doubted", [4]),
    195: ("asked", [8, 8]),
    196: ("recorded", [8, "*"]),
    197: ("announced", [8, "*"]),
    198: ("answered", [8, 8, "?"]),
    199: ("told", [8, 8, 8, 8, "?", "?"]),
}


class NotALetter(Exception):
    """The text spells none."""


def take(kind, text):
    """What stands in front of a text, and what is left."""
    if kind == "*":
        return text, b""
    size = 1 if kind == "?" else kind
    if len(text) < size:
        raise NotALetter
    number = int.from_bytes(text[:size], "big")
    if kind != "?":
        return number, text[size:]
    if number > 1:
        raise NotALetter
    return number == 1, text[size:]


def read(text):
    """The name of the letter, and what it says."""
    if not text:
        raise NotALetter
    if text[0] < FIRST_MARK:
        return "frame", [text]
    if text[0] not in LETTERS:
        raise NotALetter
    name, kinds = LETTERS[text[0]]
    said, left = [], text[1:]
    for kind in kinds:
        field, left = take(kind, left)
        said.append(field)
    if left:
        raise NotALetter
    return name, said


def spell(kind, field):
    return field if kind == "*" else big_endian(int(field), 1 if kind == "?" else kind)


def write(name, said):
    """The text of a letter."""
    if name == "frame":
        return said[0]
    mark, kinds = next((mark, kinds) for mark, (other, kinds) in LETTERS.items() if other == name)
    return bytes([mark]) + b"".join(spell(kind, field) for kind, field in zip(kinds, said))
