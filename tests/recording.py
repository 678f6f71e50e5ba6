"""Connections that ask for shared keys, and the records of what they asked and were answered. For chaos and linear."""
import base64
import json
import math
import random
import threading
import time

from hosting import AGAIN, Ended
from orders import Record, Request

EACH = 4                # seconds that a shared key is in use; then another one is
KEYS = 3                # shared keys at a time
PAUSE = 0.01            # seconds between two requests of a connection
ENDS = {"get": b"END\r\n", "gets": b"END\r\n"}


def write_records(path, records):
    with open(path, "w", encoding="ascii") as file:
        for it in records:
            told = {"request": [it.request.name, text(it.key()), it.request.flags, text(it.request.data), it.request.unique,
                                it.request.value], "called": it.called,
                    "returned": it.returned if it.answer is not None else None, "answer": it.answer and text(it.answer)}
            file.write(json.dumps(told) + "\n")


def text(data):
    return base64.b64encode(data).decode()


def record_of(told):
    name, key, flags, data, unique, value = told["request"]
    request = Request(name, (base64.b64decode(key),), flags, base64.b64decode(data), unique, value)
    answer = told["answer"] and base64.b64decode(told["answer"])
    return Record(request, told["called"], told["returned"] or math.inf, answer)


def read_records(path):
    with open(path, encoding="ascii") as file:
        return [record_of(json.loads(line)) for line in file]


class Sharing(threading.Thread):
    """Asks for keys that others ask for too, one request after the other, and keeps a record of each."""

    def __init__(self, deployment, front, name, seed):
        super().__init__(name=name, daemon=True)
        self.deployment, self.front, self.draw = deployment, front, random.Random(f"{seed} {name}")
        self.records, self.ends, self.turn, self.ending = [], [], 0, False
        self.known, self.client = {}, None      # the unique that was last told of a key
        self.start()

    def request(self):
        """One at random, of a key that is in use now."""
        key = b"s%d-%d" % (self.draw.randrange(KEYS), time.monotonic() // EACH)
        name = self.draw.choices(["get", "gets", "set", "add", "replace", "append", "prepend", "cas", "incr", "decr", "delete"],
                                 [4, 4, 2, 2, 1, 1, 1, 4, 4, 2, 1])[0]
        flags = self.draw.randrange(100) if name in ("set", "add", "replace", "cas") else 0
        return Request(name, (key,), flags, self.data(name), self.known.get(key, 1) if name == "cas" else 0,
                       self.draw.randrange(1, 1000) if name in ("incr", "decr") else 0)

    def data(self, name):
        """Digits, so that counters can count on; no two clients store the same."""
        self.turn += 1
        if name in ("append", "prepend"):
            return b"%d" % self.draw.randrange(1, 10)
        stores = name in ("set", "add", "replace", "cas")
        return b"%d" % (self.draw.randrange(1, 10 ** 6) * 1000 + self.turn % 1000) if stores else b""

    def one(self):
        request, called = self.request(), time.monotonic()
        try:
            answer = self.client.ask(request.canonical(), ENDS.get(request.name, b"\r\n"))
        except Ended as end:
            answer = end.args[0]
        if not isinstance(answer, bytes) or not answer.endswith(b"\r\n") or answer.startswith(b"SERVER_ERROR"):
            self.records.append(Record(request, called))
            raise Ended(answer)
        record = Record(request, called, time.monotonic(), answer)
        self.records.append(record)
        if record.name():
            self.known[request.keys[0]] = record.name()

    def connection(self):
        self.client = self.deployment.client(self.front)
        while not self.ending:
            self.one()
            time.sleep(PAUSE)

    def run(self):
        while not self.ending:
            try:
                self.connection()
            except (Ended, OSError) as error:
                self.ends.append((time.monotonic(), repr(error)))
                time.sleep(AGAIN)
            if self.client:
                self.client.close()

    def end(self, seconds=70):
        self.ending = True
        self.join(seconds)
