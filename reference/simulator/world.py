"""A world: replicas, clients, and one record of the frames that correct parties sent. What comes where is
said by events; nothing comes by itself, and faulty parties do nothing by themselves."""
from dataclasses import dataclass

from . import checks, requests
from .own_frames import ALL
from .replica import Replica
from .session import Session
from .sizes import FIRST_CLIENT, Fault, Refusal


@dataclass(frozen=True)
class Submit:
    """A client is handed a request."""
    client: int
    payload: bytes

    @property
    def party(self):
        return FIRST_CLIENT + self.client


@dataclass(frozen=True)
class Relay:
    """A frame of the record comes to a party."""
    frame: int
    party: int


@dataclass(frozen=True)
class Inject:
    """Bytes come to a party."""
    party: int
    data: bytes


@dataclass(frozen=True)
class Offer:
    """A frame of the record, by its number, or bytes are offered to a replica, whatever the certificate in them."""
    party: int
    source: object


@dataclass(frozen=True)
class Gather:
    """Frames of the record or bytes come to a replica together."""
    party: int
    sources: tuple


@dataclass(frozen=True)
class Lead:
    """A replica is told to lead from the block of a digest."""
    party: int
    digest: bytes


@dataclass(frozen=True)
class Ask:
    """A replica is told to ask another one for the block of a digest."""
    party: int
    to: int
    digest: bytes


@dataclass(frozen=True)
class Timeout:
    """A replica's view has lasted too long."""
    party: int


@dataclass(frozen=True)
class Beat:
    """A replica is told to propose, if it leads."""
    party: int


@dataclass(frozen=True)
class Prune:
    """A replica raises its horizon to a height, and forgets what is below."""
    party: int
    height: int


@dataclass(frozen=True)
class Sent:
    event: int          # from 1
    to: object          # ALL or a party
    data: bytes


def sources_of(event):
    """Where the frames that an event brings come from: each is a number of the record, or bytes."""
    if isinstance(event, Relay):
        return (event.frame,)
    if isinstance(event, Inject):
        return (event.data,)
    if isinstance(event, Offer):
        return (event.source,)
    return event.sources if isinstance(event, Gather) else ()


class World:
    def __init__(self, config, faulty=(), replica=Replica):
        if not all(config.is_party(party) for party in faulty):
            raise Refusal(Fault.NO_SUCH_PARTY)
        if len({party for party in faulty if party < FIRST_CLIENT}) > config.f:
            raise Refusal(Fault.TOO_MANY_FAULTY)
        self.config = config
        self.faulty = frozenset(faulty)
        self.replicas = {r: replica(config, r) for r in range(config.n) if r not in self.faulty}
        correct = [c for c in range(config.clients) if FIRST_CLIENT + c not in self.faulty]
        self.sessions = {c: Session(config, c) for c in correct}
        self.record = []
        self.events = 0

    def happen(self, event):
        """The party's refusal or None, the frames that were sent, and the receipt if there is one.

        An event that names a party that isn't there, a frame that wasn't sent or a payload that is no request
        ends the run."""
        self._need_all_there(event)
        self.events += 1
        refused, out, receipt = None, [], None
        if event.party not in self.faulty:
            try:
                out, receipt = self._answer(event)
            except Refusal as refusal:
                refused = refusal.fault
                out = [self.replicas[event.party].own.fetch(*refusal.missing)] if refusal.missing else []
        sent = [Sent(self.events, to, data) for to, data in out]
        self.record += sent
        return refused, sent, receipt

    def _need_all_there(self, event):
        parties = [event.party, event.to] if isinstance(event, Ask) else [event.party]
        if not all(self.config.is_party(party) for party in parties):
            raise Refusal(Fault.NO_SUCH_PARTY)
        if any(isinstance(source, int) and source >= len(self.record) for source in sources_of(event)):
            raise Refusal(Fault.NO_SUCH_FRAME)
        if isinstance(event, Submit) and requests.read_canonical(event.payload) is None:
            raise Refusal(Fault.NOT_A_REQUEST)

    def _bytes_of(self, source):
        return self.record[source].data if isinstance(source, int) else source

    def _answer(self, event):
        if isinstance(event, (Offer, Gather, Lead, Ask)):
            return self._on_grounds(self.replicas[event.party], event), None
        if isinstance(event, Submit):
            return [(ALL, self.sessions[event.client].submit(event.payload))], None
        if isinstance(event, Timeout):
            return self.replicas[event.party].timeout(), None
        if isinstance(event, Beat):
            return self.replicas[event.party].beat(), None
        if isinstance(event, Prune):
            return self.replicas[event.party].prune(event.height), None
        [data] = [self._bytes_of(source) for source in sources_of(event)]
        if event.party >= FIRST_CLIENT:
            return [], self.sessions[event.party - FIRST_CLIENT].receive(data)
        replica = self.replicas[event.party]
        return replica.receive(checks.admit(replica.keyring, data)), None

    def _on_grounds(self, replica, event):
        pieces = [self._bytes_of(source) for source in sources_of(event)]
        if isinstance(event, Offer):
            return replica.offered(checks.admit_offer(replica.keyring, *pieces))
        if isinstance(event, Gather):
            return replica.gathered(checks.admit_copies(replica.keyring, pieces))
        if isinstance(event, Lead):
            return replica.lead(event.digest)
        return replica.ask(event.to, event.digest)

    def lengths(self):
        """(number, length of its history) of each correct replica."""
        return sorted((number, replica.executor.length) for number, replica in self.replicas.items())
