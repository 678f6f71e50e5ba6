"""The cases of a program that has several subjects."""


def cases_of(subject, text):
    """The cases of one subject, where each line begins with the name of its subject: without that name."""
    return [line.partition(" ")[2] for line in text.splitlines() if line.startswith(subject + " ")]


def part_of(subject, data):
    """The part of one subject, where each stands behind a line `#SUBJECT`; all of it where there is no such line."""
    if not data.startswith(b"#"):
        return data
    parts = dict(part.split(b"\n", 1) for part in data.split(b"#")[1:])
    return parts[subject.encode()]
