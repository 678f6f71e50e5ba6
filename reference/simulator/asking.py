"""The blocks that one replica asked for: on whose account, of whom, and the copies that came.

A copy is kept only where its own tag is right, and counts only where its certificate's digest is that of the block that
it justifies. Each copy is tried alone, then copies of more than f senders together.
"""
import collections
from dataclasses import dataclass

from . import policy
from .checks import has_own_tag
from .world import Ask, Gather


@dataclass
class Question:
    payer: int          # whose frame made the replica ask
    at: int             # the tick of the last time
    first: object       # whom it's asked at first; None for all
    times: int = 0
    to_all: bool = False


class Questions:
    def __init__(self, edge):
        self.edge = edge
        self.open = {}          # digest -> Question
        self.copies = {}        # digest -> {sender: (item, frame)}
        self.asked_now = collections.Counter()      # tick -> questions, of the last tick that had some
        self.news_at = 0        # when a block last came that had not come before

    def need(self, digest, payer, whom=None):
        """Asks this replica, or all where none is named, unless that was done a short while ago. No more questions go
        out in a tick than heights; others wait."""
        if self.edge.tree.get(digest) is not None:
            return
        now, question = self.edge.now, self.open.get(digest)
        if question is None:
            question = self.open[digest] = Question(payer, now, whom)
        elif not self._is_due(question) and (question.to_all or whom is not None):
            return
        if self.asked_now[now] >= policy.PACE:
            return
        self.asked_now = collections.Counter({now: self.asked_now[now] + 1})
        question.at, question.times, question.to_all = now, question.times + 1, whom is None
        if question.times > policy.MOST_QUESTIONS:
            self._close(digest)
            return
        for other in range(self.edge.n) if whom is None else [whom]:
            if other != self.edge.me:
                self.edge.do(Ask(self.edge.me, other, digest))

    def need_below(self, frame, payer, whom):
        """The parent of a block. Padding is known before it comes: where all between the block and what it justifies
        are empty blocks, all that lack are asked for at once."""
        core, tree = frame.core, self.edge.tree
        base = tree.get(frame.cert.digest)
        lacking = policy.padding(base.digest, base.height, core.height - 1) if base and self.edge.has("padding") else []
        if not lacking or lacking[-1] != core.parent:
            lacking = [core.parent] if base or core.justify == core.height - 1 else [frame.cert.digest, core.parent]
        for digest in lacking:
            self.need(digest, payer, whom)

    def _is_due(self, question):
        """From time to time, later where it was often asked."""
        return self.edge.now - question.at >= self.edge.times.again * min(question.times, 2)

    def ask_again(self):
        """What wasn't asked yet is asked, and what wasn't answered is asked of all."""
        late = [(digest, question) for digest, question in self.open.items()
                if self._is_due(question) and not self._waits_for_parent(digest)]
        for digest, question in late[:policy.PACE]:
            self.need(digest, question.payer, None if question.times else question.first)

    def _waits_for_parent(self, digest):
        copies = self.copies.get(digest)
        return copies and self._core(digest).parent in self.open

    def _core(self, digest):
        return next(iter(self.copies[digest].values()))[1].core

    def _close(self, digest):
        self.open.pop(digest, None)
        self.copies.pop(digest, None)

    def came(self, item, frame):
        """A Block frame. It's lost where nobody asked for it."""
        digest = frame.core.digest()
        if digest not in self.open or not has_own_tag(self.edge.replica.keyring, frame):
            return
        self.news_at = self.edge.now if digest not in self.copies else self.news_at
        self.copies.setdefault(digest, {})[frame.sender] = item, frame
        self.try_take(digest)

    def children_of(self, digest):
        return [child for child in self.copies if self._core(child).parent == digest]

    def try_take(self, digest):
        """Takes the block if its copies are enough; else asks for what lacks."""
        if self.edge.tree.get(digest) is not None:
            self._close(digest)
        elif self.copies.get(digest) and not self.edge.leading.holds():
            core, question = self._core(digest), self.open[digest]
            parent = self.edge.tree.get(core.parent)
            if parent is None:
                sender, (_, frame) = next(iter(self.copies[digest].items()))
                self.need_below(frame, question.payer, None if question.to_all else sender)
            elif not self.edge.door.has_room(question.payer, core.height):
                self.edge.town.count["blocks over an account"] += 1
                self._close(digest)
            else:
                self._take(digest, core, parent, question.payer)

    def _take(self, digest, core, parent, payer):
        right = self._right_copies(digest, core, parent)
        if self._one_is_enough(right) or self._several_are(right):
            self._close(digest)
            self.edge.door.took(payer, core.height)
            self.edge.after_take(digest)
        elif not self.open[digest].to_all:
            self.need(digest, payer)

    def _right_copies(self, digest, core, parent):
        """Without those whose certificate is for another block than the justified one."""
        if core.height != parent.height + 1:
            return []
        justified = parent.at(core.justify).digest
        kept = {sender: copy for sender, copy in self.copies[digest].items()
                if copy[1].cert.digest == justified or not self.edge.has("digests")}
        self.copies[digest] = kept
        if not kept:
            del self.copies[digest]
        return [item for item, _ in kept.values()]

    def _one_is_enough(self, items):
        return any(self.edge.bring(item) is None for item in items)

    def _several_are(self, items):
        if len(items) <= self.edge.f or not self.edge.has("copies"):
            return False
        sources = tuple(items[:self.edge.n])
        return self.edge.do(Gather(self.edge.me, sources)) is None

    def try_all(self):
        for digest in list(self.copies):
            self.try_take(digest)
