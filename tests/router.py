#!/usr/bin/env python3
"""Takes packets out of a tun device, and gives them back later, twice, in another order, or not at all.

    tests/router.py DEVICE SEED

Run as root, in the namespace where DEVICE shall be. What is routed into DEVICE is read, and written back as the terms of its
link say; so what comes out of DEVICE has to be routed elsewhere (tests/network.py). Terms come on standard input, a line of
JSON for each link: {"from": ADDRESS, "to": ADDRESS, "delay": MS, ..}, as `Terms` has them. Each time a line was taken it
prints one, and ends with its input.
"""
import fcntl
import heapq
import json
import os
import random
import select
import socket
import struct
import sys
import time
from dataclasses import dataclass

TUNSETIFF, IFF_TUN, IFF_NO_PI = 0x400454CA, 1, 0x1000
MOST_AT_ONCE = 256      # packets that are read before those that are due are written
LONGEST_WAIT = 0.5      # seconds that a packet may wait for a link with a rate; what would wait longer is lost


@dataclass
class Terms:
    """What a link does with packets."""
    delay: float = 0        # milliseconds
    late: float = 0         # the share that comes later still, behind others
    later: float = 5        # by up to so many milliseconds
    loss: float = 0         # the share that is lost
    repeats: float = 0      # the share that comes twice
    rate: float = 0         # bits a second; 0: as many as come
    free_at: float = 0      # when the packets before have passed a link with a rate


def open_tun(name):
    """The device, whose reads never wait."""
    device = os.open("/dev/net/tun", os.O_RDWR | os.O_NONBLOCK)
    fcntl.ioctl(device, TUNSETIFF, struct.pack("16sH22x", name.encode(), IFF_TUN | IFF_NO_PI))
    return device


class Router:
    def __init__(self, device, seed):
        self.device, self.draw = device, random.Random(seed)
        self.links = {}         # (from, to) -> Terms
        self.waiting = []       # (when, number, packet)
        self.count = 0

    def take_terms(self, line):
        told = json.loads(line)
        ends = tuple(socket.inet_aton(told.pop(end)) for end in ("from", "to"))
        self.links[ends] = Terms(**told)
        print("taken", flush=True)

    def moment(self, terms, size, now):
        """When a packet that came now goes out; None where it's lost."""
        if self.draw.random() < terms.loss:
            return None
        if terms.rate:
            begins = max(now, terms.free_at)
            if begins - now > LONGEST_WAIT:
                return None
            now = terms.free_at = begins + size * 8 / terms.rate
        wait = terms.delay + (self.draw.random() * terms.later if self.draw.random() < terms.late else 0)
        return now + wait / 1000

    def put(self, when, packet):
        self.count += 1
        heapq.heappush(self.waiting, (when, self.count, packet))

    def take(self, packet, now):
        """A packet came from the kernel."""
        terms = self.links.get((packet[12:16], packet[16:20]))
        when = self.moment(terms, len(packet), now) if terms else now
        if when is not None:
            self.put(when, packet)
            if terms and self.draw.random() < terms.repeats:
                self.put(when + self.draw.random() * terms.later / 1000, packet)

    def read_some(self):
        for _ in range(MOST_AT_ONCE):
            try:
                packet = os.read(self.device, 65536)
            except BlockingIOError:
                return
            self.take(packet, time.monotonic())

    def write_due(self):
        while self.waiting and self.waiting[0][0] <= time.monotonic():
            try:
                os.write(self.device, heapq.heappop(self.waiting)[2])
            except OSError:     # the device is full: the packet is lost
                pass

    def run(self, told):
        """Until there are no more terms to be told."""
        while True:
            wait = max(0, self.waiting[0][0] - time.monotonic()) if self.waiting else None
            ready = select.select([self.device, told], [], [], wait)[0]
            if told in ready:
                line = told.readline()
                if not line:
                    return
                self.take_terms(line)
            self.read_some()
            self.write_due()


def main():
    router = Router(open_tun(sys.argv[1]), int(sys.argv[2]))
    print("ready", flush=True)
    router.run(open(0, "rb", buffering=0))


if __name__ == "__main__":
    main()
