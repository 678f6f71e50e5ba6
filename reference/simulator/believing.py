"""Whom a replica believes: whose requests a leader lets in, and whose votes it does without."""
from collections import Counter, defaultdict

BARRED_AT_FIRST, MOST_DOUBLED, STRIDE, PAUSES = 1000, 6, 167, 3


def barred_for(times):
    return BARRED_AT_FIRST << min(times, MOST_DOUBLED)


class Clients:
    """What a leader knows of clients. Nobody is suspected before it began anew."""

    def __init__(self):
        self.begun = 0                          # how often
        self.suspects = self.one_by_one = self.others_pass = self.someone_passed = False
        self.passed = set(range(256))           # since it began anew: all, before the first time
        self.vain = Counter()                   # trials that came to nothing
        self.failed, self.doubted = Counter(), Counter()
        self.out_until, self.doubted_until = defaultdict(int), defaultdict(int)
        self.trial = None                       # client, number, when, whether it had to wait
        self.pause_until = 0

    def is_barred(self, client, now):
        return now < self.out_until[client]

    def is_suspected(self, client):
        return self.suspects and client not in self.passed

    def on_trial(self, client):
        return self.trial is not None and self.trial[0] == client

    def is_cleared(self, client):
        return client in self.passed or (self.others_pass and not self.vain[client])

    def follower_lets_in(self, client, now):
        return not self.is_barred(client, now)

    def leader_lets_in(self, client, now):
        if self.is_barred(client, now) or now < self.doubted_until[client]:
            return False
        return not self.is_suspected(client) or self.on_trial(client)

    def leader_lets_in_vouched(self, client, now):
        if self.is_barred(client, now):
            return False
        return not (self.suspects and self.one_by_one) or self.on_trial(client) or self.is_cleared(client)

    def is_due(self, client, now):
        return not self.is_barred(client, now) and not self.is_cleared(client)

    def place(self, client):
        return 256 * self.vain[client] + STRIDE * (client + self.begun) % 256

    def is_wary(self, now):
        times = [*self.out_until.values(), *self.doubted_until.values()]
        return self.suspects or any(now < time for time in times)

    def may_try(self, now):
        return self.suspects and self.one_by_one and self.trial is None and now >= self.pause_until

    def vouch(self, client):
        if not self.one_by_one:
            self.passed.add(client)

    def doubt(self, client, now):
        self.doubted_until[client] = now + barred_for(self.doubted[client])
        self.doubted[client] += 1

    def begin_trial(self, client, number, now):
        self.trial = client, number, now, False

    def wait(self):
        if self.trial:
            self.trial = (*self.trial[:3], True)

    def serve(self, client, number):
        if not self.trial or self.trial[:2] != (client, number):
            return
        self.someone_passed |= self.trial[3]
        self.passed.add(client)
        self.vain[client] = 0
        self.failed[client] = max(0, self.failed[client] - 1)
        self.trial = None

    def pause(self, now):
        self.pause_until = now + PAUSES * (now - self.trial[2])

    def suspect_all(self, others_pass):
        self.suspects, self.others_pass = True, others_pass
        self.trial, self.someone_passed = None, False
        self.passed.clear()
        self.begun += 1

    def begin(self, now):
        if self.trial is None:
            self.one_by_one = self.suspects
            return self.suspect_all(False)
        client = self.trial[0]
        self.vain[client] += 1
        if not self.someone_passed:
            return self.suspect_all(False)
        self.out_until[client] = now + barred_for(self.failed[client])
        self.failed[client] += 1
        self.pause(now)
        self.trial, self.someone_passed = None, False

    def lead_from_lock(self, now):
        if self.trial is not None:
            self.vain[self.trial[0]] += 1
            self.pause(now)
        self.suspect_all(True)

    def end(self):
        self.suspects = self.one_by_one = False
        self.trial = None

    def show(self, now):
        words = [("w" if self.is_wary(now) else "-") + ("t" if self.may_try(now) else "-")]
        for client in range(4):
            said = {"s": self.is_suspected(client), "f": self.follower_lets_in(client, now),
                    "l": self.leader_lets_in(client, now), "v": self.leader_lets_in_vouched(client, now),
                    "d": self.is_due(client, now)}
            words.append("".join(word for word in said if said[word]) + str(self.place(client)))
        return " ".join(words)


class Voters:
    """Whose votes a replica does without, of whom `faults` may be faulty."""

    def __init__(self, faults):
        self.faults = faults
        self.passed, self.deaf_to = set(), set()
        self.told = defaultdict(set)            # by whom

    def find(self, wrong):
        for some in (self.passed | wrong, wrong):
            if len(some) <= self.faults:
                self.passed = some
                return

    def hear(self, teller, wrong):
        self.told[teller] |= wrong
        if teller in self.deaf_to:
            tellers = Counter(voter for some in self.told.values() for voter in some)
            wrong = {voter for voter, times in tellers.items() if times > self.faults}
        self.find(set(wrong))

    def spares(self, teller, wrong):
        """Whether a quorum is left without any of them."""
        return len(self.passed | set(self.told) | wrong | {teller}) <= self.faults

    def forget(self):
        self.deaf_to |= set(self.told)
        self.told.clear()
        self.passed = set()

    def hear_all(self):
        self.deaf_to = set()
