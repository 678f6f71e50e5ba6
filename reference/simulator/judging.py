"""Judges a run from outside: whether it is linear, and whether replicas that were refused memory did nothing
more. What is judged is what the parties answered, sent, accepted and executed."""
from . import frames, schedule
from .cache import Cache
from .frames import Kind
from .sizes import FIRST_CLIENT, MOST_KEYS, Config, Fault, Refusal, party_name
from .world import Submit, World

MEMORY = 19
MAY_STOP = {MEMORY, Fault.CONFLICT, Fault.FULL}
OF_STOPPED = {Fault.STOPPED, Fault.NOT_A_FRAME, Fault.BAD_TAG, Fault.NOT_MINE}


class Run:
    """A schedule that was run; a refusal that ends it comes as an exception."""

    def __init__(self, head, events, most_keys):
        f, clients, faulty = head
        self.world = World(Config(f, clients, most_keys=most_keys), faulty)
        self.events = events
        self.answers, self.receipts = [], []
        for event in events:
            refused, _, receipt = self.world.happen(event)
            self.answers.append(refused)
            if receipt:
                self.receipts.append((self.world.events, event.party - FIRST_CLIENT, receipt))
        self._look_at_histories()

    @classmethod
    def that_was(cls, world, events, answers, receipts):
        """One that was run elsewhere; a receipt stands behind its event and its client."""
        run = cls.__new__(cls)
        run.world, run.events, run.answers, run.receipts = world, events, answers, receipts
        run._look_at_histories()
        return run

    def _look_at_histories(self):
        self.histories = {number: replica.history for number, replica in sorted(self.world.replicas.items())}

    def submissions(self):
        """(client, seq) -> (event, payload)"""
        found, given = {}, {}
        for number, (event, answer) in enumerate(zip(self.events, self.answers), 1):
            if isinstance(event, Submit) and answer is None:
                given[event.client] = given.get(event.client, 0) + 1
                found[event.client, given[event.client]] = number, event.payload
        return found

    def is_correct(self, client):
        return client < self.world.config.clients and FIRST_CLIENT + client not in self.world.faulty

    def inputs(self):
        """(number of the event, replica, answer) of each input of a correct replica."""
        for number, (event, answer) in enumerate(zip(self.events, self.answers), 1):
            if not isinstance(event, Submit) and event.party in self.world.replicas:
                yield number, event.party, answer


def fresh_places(history, most_keys):
    """place -> the text that the sequential cache replies there"""
    cache, last, texts = Cache(most_keys), {}, {}
    for place, (client, seq, payload) in enumerate(history, 1):
        if seq > last.get(client, 0):
            last[client] = seq
            texts[place] = cache.answer(payload)
    return texts


def wrong_answers(run):
    refused, may_stop = set(), set()
    for number, replica, answer in run.inputs():
        if replica in refused and answer not in OF_STOPPED:
            return "event %d came to a refused replica that goes on" % number
        if answer == Fault.STOPPED and replica not in may_stop:
            return "event %d came to a replica that stopped for nothing" % number
        if answer == MEMORY:
            refused.add(replica)
        if answer in MAY_STOP:
            may_stop.add(replica)
    return None


def wrong_frames(run):
    for sent in run.world.record:
        if run.answers[sent.event - 1] == MEMORY:
            return "event %d was refused, and sent a frame" % sent.event
    return None


def wrong_histories(run, whole):
    for number, history in run.histories.items():
        if history != whole[:len(history)]:
            return "the history of %s forks" % party_name(number)
    return None


def wrong_entries(run, whole, texts):
    submitted = run.submissions()
    for place in texts:
        client, seq, payload = whole[place - 1]
        if run.is_correct(client) and submitted.get((client, seq), (0, None))[1] != payload:
            return "place %d was not submitted" % place
    return None


def wrong_replies(run):
    submitted = run.submissions()
    for sent in run.world.record:
        if frames.kind_of(sent.data) != Kind.REPLY:
            continue
        reply = frames.read(run.world.config, sent.data)
        event, _ = submitted.get((reply.client, reply.seq), (None, None))
        if event is None and run.is_correct(reply.client) or event is not None and event >= sent.event:
            return "event %d answers what was not submitted before" % sent.event
    return None


def wrong_receipt(accepted, whole, texts):
    event, client, receipt = accepted
    if receipt.place not in texts or whole[receipt.place - 1][:2] != (client, receipt.seq):
        return "the receipt of event %d is not for its place" % event
    if texts[receipt.place] != receipt.text:
        return "the receipt of event %d has another text" % event
    return None


def wrong_order(run, accepted, whole, texts):
    event, _, receipt = accepted
    submitted = run.submissions()
    for place in texts:
        client, seq, _ = whole[place - 1]
        later = submitted.get((client, seq), (0, None))[0] > event
        if place <= receipt.place and run.is_correct(client) and later:
            return "place %d was submitted after a later one was accepted" % place
    return None


def faults_of(run):
    """What is wrong with a run, rule by rule."""
    whole = max(run.histories.values(), key=len)
    texts = fresh_places(whole, run.world.config.most_keys)
    yield wrong_answers(run)
    yield wrong_frames(run)
    yield wrong_histories(run, whole)
    yield wrong_entries(run, whole, texts)
    yield wrong_replies(run)
    for accepted in run.receipts:
        yield wrong_receipt(accepted, whole, texts)
        yield wrong_order(run, accepted, whole, texts)


def judgement(run):
    """The lines that are told of a run."""
    counts = len(run.answers), len(run.world.record), run.answers.count(MEMORY), run.answers.count(Fault.STOPPED)
    yield "%d events, %d frames; %d refused, %d at stopped replicas" % counts
    yield " ".join(["histories"] + ["r%d:%d" % (r, len(history)) for r, history in run.histories.items()])
    yield " ".join(["receipts"] + ["c%d:%d@%d" % (c, receipt.seq, receipt.place) for _, c, receipt in run.receipts])
    found = [fault for fault in faults_of(run) if fault]
    yield from ["wrong: " + fault for fault in found] or ["linear"]


def judge(text, refused=None, most_keys=MOST_KEYS):
    """The lines that are told of a schedule, where the answer of an event is taken to be a refusal of memory, and
    caches have room for so many keys."""
    try:
        run = Run(*schedule.read(text), most_keys)
    except Refusal as refusal:
        return ["no run: %d" % refusal.fault]
    if refused and refused <= len(run.answers):
        run.answers[refused - 1] = MEMORY
    return list(judgement(run))
