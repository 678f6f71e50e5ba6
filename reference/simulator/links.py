"""Links that take time, between parties of a world: a frame takes a tick and a delay at random, or is lost; a link may
bring only so many frames a tick, in the order in which they were sent."""
import collections
from dataclasses import dataclass


@dataclass(frozen=True)
class LinkSizes:
    delay: int = 0              # ticks more than one, at most
    loss: float = 0             # of the frames between replicas and clients
    rate: int = 0               # frames a tick on one link; 0 where there is no bound


class Links:
    def __init__(self, rng, sizes):
        self.rng, self.sizes = rng, sizes
        self.on_the_way = collections.defaultdict(list)     # tick -> (source, to, item)
        self.queues = {}                                    # (source, to) -> items that came and wait for their turn

    def send(self, now, source, to, item):
        if self.rng.random() >= self.sizes.loss:
            self.on_the_way[now + 1 + self.rng.randint(0, self.sizes.delay)].append((source, to, item))

    def due(self, now):
        """What comes in this tick: (source, to, item)."""
        came = self.on_the_way.pop(now, [])
        if not self.sizes.rate:
            return came
        for source, to, item in came:
            self.queues.setdefault((source, to), collections.deque()).append(item)
        return [(source, to, item) for (source, to), queue in self.queues.items() for item in self._first(queue)]

    def _first(self, queue):
        return [queue.popleft() for _ in range(min(len(queue), self.sizes.rate))]
