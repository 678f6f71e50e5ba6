"""The functions of the crates, and which of them the programs can reach. For bin/check-rules.

What can be reached is read off the sources by names and numbers of arguments: a call reaches each function of that name
and number in the crates below. So one that nobody calls may pass for reached where another of its name is called.
"""
import os
import re

from crate_list import CRATES

PROGRAMS = ["mcbft_main", "hsim_main"]
CALL = re.compile(r"(?:\b([A-Za-z_]\w*)\s*::\s*)?(\.)?\b([a-z_]\w*)\s*(?:::\s*<[^()]*>\s*)?\(")
NAMED = re.compile(r"\b([A-Z]\w*)::([a-z_]\w*)\b(?!\s*[(:])|[(,]\s*(?:[a-z_]\w*::)*([a-z_]\w*)\s*(?=[,)])")
FUNCTION = re.compile(r"\bfn\s+([a-z_]\w*)")
ALIAS = re.compile(r"^pub type (\w+)(?:<.*?>)? = (\w+)", re.M)
OWNER = re.compile(
    r"^(?:impl(?:<.*?>)?\s+(?:(?P<trait>[^{]*?)\s+for\s+)?(?P<type>[A-Z]\w*)|(?:pub )?trait\s+(?P<own>\w+))"
)


def sources(crate):
    """(module, text without comments) of each file of a crate."""
    folder = os.path.join(CRATES, crate, "src")
    for base, _, files in os.walk(folder):
        for file in sorted(files):
            module = os.path.relpath(os.path.join(base, file), folder)[:-len(".rt")].replace(os.sep, "::")
            with open(os.path.join(base, file), encoding="utf-8") as text:
                yield module, re.sub(r"//.*", "", text.read())


def arguments(text, start):
    """How many arguments stand in the parentheses that open here, and where they close."""
    depth, count, filled, at = 0, 0, False, start
    while at < len(text):
        char = text[at]
        if char == "|" and depth == 1:                              # a closure's own parameters
            at = max(at, text.find("|", at + 1))
        elif char in "([{" or (char == "<" and text[at - 1] not in " -="):
            depth += 1
        elif char in ")]}" or (char == ">" and text[at - 1] not in " -="):
            depth -= 1
            if depth == 0:
                return count + filled, at
        elif char == "," and depth == 1:
            count, filled = count + filled, False
            at += 1
            continue
        if depth and not char.isspace() and at > start:
            filled = True
        at += 1
    return count + filled, at


class Function:
    """Where a function stands, how it is called, and what its text calls."""

    def __init__(self, crate, module, owner, trait, text):
        self.crate, self.module, self.owner, self.trait = crate, module, owner, trait
        self.name = FUNCTION.search(text)[1]
        head = text[text.index("(", FUNCTION.search(text).end()):]
        parameters = head[:arguments(head, 0)[1]]
        self.has_self = bool(re.match(r"\(\s*(&\s*('\w+\s+)?)?(mut\s+)?self\b", parameters))
        self.count = arguments(head, 0)[0] - self.has_self
        self.body = head[len(parameters):]

    def path(self):
        return "::".join(name for name in (self.crate, self.owner, self.name) if name)

    def is_empty(self):
        """Whether its body is, as that of a law."""
        return bool(re.search(r"\{\s*\}$", self.body.rstrip()))

    def calls(self):
        """(owner or None, whether as a method, name, how many arguments or None)"""
        for found in CALL.finditer(self.body):
            yield found[1], bool(found[2]), found[3], arguments(self.body, found.end() - 1)[0]
        for found in NAMED.finditer(self.body):
            yield found[1], False, found[2] or found[3], None

    def is_called_by(self, caller, owner, is_method, count):
        if is_method:
            return self.has_self and count == self.count
        if owner == "Self":
            owner = caller.owner
        if owner and owner[0].isupper():
            return owner in (self.owner, self.trait) and count in (None, self.count + self.has_self)
        return not self.owner and count in (None, self.count)


def functions_of(crate):
    for module, text in sources(crate):
        yield from functions_in(crate, module, text)


def functions_in(crate, module, text):
    """The functions of a file; a function's text goes up to the next one, or to the next item behind it."""
    lines = text.splitlines()
    owner, trait, begun = None, None, None          # begun: (line, owner, trait) of a function
    for number, line in enumerate([*lines, "struct End;"]):
        is_item = bool(line) and not line.startswith((" ", "{", "}", ")", "where"))
        is_function = bool(FUNCTION.search(line)) and not re.search(r"\bfn\(", line.split("fn ")[0])
        if begun and (is_item or is_function):
            start, *whose = begun
            yield Function(crate, module, *whose, "\n".join(lines[start:number]))
            begun = None
        if is_item:
            found = OWNER.match(line)
            owner = (found["type"] or found["own"]) if found else None
            trait = re.sub(r"<.*|.*::", "", found["trait"] or "") or None if found else None
        if is_function:
            begun = (number, owner, trait)


def aliases_of(crates):
    """Other names of types: what stands for `pub type Name = Type`."""
    return {name: kind for crate in crates for _, text in sources(crate) for name, kind in ALIAS.findall(text)}


def own_traits_of(crates):
    for crate in crates:
        for _, text in sources(crate):
            yield from re.findall(r"\btrait\s+(\w+)", text)


def reached(functions, below, promised=()):
    """The functions that the programs can reach, and these with what they call. A trait that others declare is called
    by who knows, and a crate can call what one above it wrote for a trait of its own."""
    by_name = {}
    for function in functions:
        by_name.setdefault(function.name, []).append(function)
    programs, own = set().union(*(below[program] for program in PROGRAMS)), {None, *own_traits_of(below)}
    todo = [f for f in functions if f.crate in programs and (f.trait not in own or f.crate in PROGRAMS)]
    todo += promised
    seen, aliases = set(todo), aliases_of(below)
    while todo:
        caller = todo.pop()
        for owner, is_method, name, count in caller.calls():
            for callee in by_name.get(name, []):
                is_there = callee.crate in (programs if callee.trait else below[caller.crate])
                by = aliases.get(owner, owner)
                if callee not in seen and is_there and callee.is_called_by(caller, by, is_method, count):
                    seen.add(callee)
                    todo.append(callee)
    return seen


