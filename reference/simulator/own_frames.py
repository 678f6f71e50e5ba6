"""The frames that a replica signs. Certificates in them are cut."""
from dataclasses import replace

from .checks import cut
from .frames import (BlockFrame, FetchFrame, Kind, NewViewFrame, ProposalFrame, ReplyFrame, Vote, VoteFrame,
                     write)
from .sizes import FIRST_CLIENT

ALL = "all"


class OwnFrames:
    """Each answers (destination, bytes)."""

    def __init__(self, keyring):
        self.keyring = keyring
        self.me = keyring.party

    def proposal(self, view, core, cert):
        frame = ProposalFrame(view, core, cut(self.keyring, cert))
        vector = self.keyring.vector(Kind.PROPOSAL, frame.content())
        return ALL, write(replace(frame, vector=vector))

    def vote(self, to, digest):
        return to, write(VoteFrame(digest, Vote(self.me, self.keyring.vector(Kind.VOTE, digest))))

    def new_view(self, view, cert):
        frame = NewViewFrame(view, self.me, cut(self.keyring, cert))
        vector = self.keyring.vector(Kind.NEW_VIEW, frame.content())
        return ALL, write(replace(frame, vector=vector))

    def block(self, to, core, cert):
        frame = BlockFrame(self.me, core, cut(self.keyring, cert))
        tag = self.keyring.tag(Kind.BLOCK, to, frame.content())
        return to, write(replace(frame, tag=tag))

    def reply(self, answer):
        fields = self.me, answer.client, answer.seq, answer.place, answer.text
        to = FIRST_CLIENT + answer.client
        tag = self.keyring.tag(Kind.REPLY, to, ReplyFrame(*fields).content())
        return to, write(ReplyFrame(*fields, tag))

    def fetch(self, to, digest):
        """The question for a block, to the sender of what was refused for want of it."""
        frame = FetchFrame(self.me, digest)
        return to, write(FetchFrame(self.me, digest, self.keyring.tag(Kind.FETCH, to, frame.content())))
