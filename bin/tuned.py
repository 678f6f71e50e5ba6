"""The constants of the crates that are whole numbers, with their values. For bin/check-rules."""
import re

from crate_list import floors, stands_on
from reach import sources

HOME = "tuning"                                 # where the numbers of the edge stand
LISTED = (HOME, "ids")                          # the crates whose public numbers docs/RULES.md lists
NOT_TUNED = {
    "fabric::OWN",                              # a row's place in a list
    "liars::REPEATS", "liars::CLIMB",           # how much a liar sends, and how long
    "liars::SOON", "liars::LATE",
    "liars::MOST_KEPT", "liars::LOW_EACH", "liars::LOW_LEAST", "liars::LOW_SPREAD", "liars::LOW_STEP",
    "liars::MANNERS",                           # how many ways there are to spoil a frame
    "command_line::MOST_OF_32_BITS",
    "handshake::ASK_LABEL", "handshake::ANSWER_LABEL",          # a format, and its lengths
    "handshake::GREETING_LEN", "handshake::ASK_LEN", "handshake::ANSWER_LEN", "handshake::HEAD_LEN",
}
CONST = re.compile(r"^ *(pub )?(?:pub\([a-z]+\) )?const ([A-Z]\w*): [ui](?:8|16|32|64|128|size) =([^;]*);", re.M)
NAME = re.compile(r"\b(?:\w+::)*([A-Z]\w*)\b")


class Constant:
    def __init__(self, crate, module, is_public, name, words):
        self.crate, self.module, self.is_public, self.name = crate, module, is_public, name
        self.words = re.sub(r"\bas \w+|_(?=\d)", "", words).strip()

    def path(self):
        return f"{self.crate}::{self.name}"


def constants():
    told = []
    for crate in stands_on():
        for module, text in sources(crate):
            told += [Constant(crate, module, bool(public), name, words) for public, name, words in CONST.findall(text)]
    return told


def named(name, by, among):
    """The constant that this one names: of its own module, else of its crate, else of those that it stands on."""
    places = [(by.crate, by.module), *((crate, None) for crate in [by.crate, *stands_on()[by.crate]])]
    for crate, module in places:
        for found in among:
            if found is not by and found.name == name and found.crate == crate and module in (None, found.module):
                return found
    return None


def value(constant, among):
    """None where it is no sum or product of numbers and of constants."""
    def number(found):
        other = named(found[1], constant, among)
        return str(value(other, among)) if other else found[0]

    words = NAME.sub(number, constant.words)
    if not re.fullmatch(r"[\d\s()*+<-]+", words):
        return None
    return eval(words, {"__builtins__": {}})        # digits and signs alone


def read_value(cell):
    """The number of a cell as 16,777,216 or 2^58; None where it is none."""
    base, power, exponent = cell.strip("` ").replace(",", "").partition("^")
    if not base.isdigit() or (power and not exponent.isdigit()):
        return None
    return int(base) ** int(exponent) if power else int(base)


def number_faults(rows):
    """What doesn't hold of the rows (name, value, ..) of docs/RULES.md."""
    among, told = constants(), []
    for row in rows:
        name = row[0].strip("` ")
        told.append(name)
        found = [constant for constant in among if constant.path() == name]
        if len(found) != 1:
            yield f"{name}: {len(found)} constants have this name"
        elif read_value(row[1]) is None or read_value(row[1]) != value(found[0], among):
            yield f"{name}: the page has {row[1]}, the code {value(found[0], among) or found[0].words}"
    for constant in among:
        name, count = constant.path(), told.count(constant.path())
        if constant.crate in LISTED and constant.is_public and count != 1:
            yield f"{name} stands {count} times among the numbers of docs/RULES.md"
        if constant.crate in floors()["Edge"] and constant.crate != HOME and name not in NOT_TUNED:
            yield f"{name} is a number outside {HOME}"
