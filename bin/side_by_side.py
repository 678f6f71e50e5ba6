"""Proves and builds crates side by side, as many as processors and memory allow. For bin/serve.

`rt` lets nobody else work on a crate and on those below it while it does. So each crate is proved in a room: a folder
of its own with its sources, those of the crates below it and their libraries, all by hard links. What was made there is
moved to the crate's own `out/`. A crate begins when those below it are built; of those that could, the one with the
heaviest chain of crates above it is first. A large crate is proved by several jobs, of which all that could begin get
their share by their weights.
"""
import contextlib
import fcntl
import os
import shutil
import subprocess
import time

from crate_list import CRATES, TOP, stands_on, with_those_below

PARTS = ("src", "specs", "proofs")
MADE = ("rlib", "incremental")                  # what `rt` keeps in out/
A_RUN, A_LINE, A_JOB = 10 ** 9, 10 ** 6, 10 ** 9    # bytes of memory of a run, for each line of its weight and each job
LARGE, MOST_JOBS = 300, 4                       # lines of Rust from which on jobs gain, and how many do
PAUSE = 0.2                                     # seconds between two looks at what runs


class Failed(Exception):
    """A crate wasn't built: its name, and its log."""


def lines(crate, part):
    count = 0
    for folder, _, files in os.walk(os.path.join(CRATES, crate, part)):
        for name in files:
            with open(os.path.join(folder, name), "rb") as file:
                count += file.read().count(b"\n")
    return count


def weight(crate):
    """How long it takes, in lines of Rust: fifty lines of definitions or proofs take as long as one, and a crate by
    itself, however short, as long as a hundred."""
    return 100 + lines(crate, "src") + (lines(crate, "specs") + lines(crate, "proofs")) // 50


def chains(crates, weights):
    """Of each crate its weight and that of the heaviest chain above it. The crates come lowest first."""
    named, heaviest = stands_on(), {}
    for crate in reversed(crates):
        above = [heaviest[other] for other in heaviest if crate in named[other]]
        heaviest[crate] = weights[crate] + max(above, default=0)
    return heaviest


def free_memory():
    with open("/proc/meminfo", encoding="ascii") as file:
        return next(1024 * int(line.split()[1]) for line in file if line.startswith("MemAvailable"))


def is_up_to_date(crate):
    """Whether its library is newer than all sources that it is made from. `rt run` looks more closely at the end."""
    stamp = os.path.join(CRATES, crate, "out", "rlib", "stamp")
    return os.path.exists(stamp) and os.stat(stamp).st_mtime > newest_source(with_those_below(crate))


def newest_source(crates):
    """When a source of these crates changed last; a folder's time tells that a file came or went."""
    newest = os.stat(os.path.join(TOP, "crates.txt")).st_mtime
    for crate in crates:
        for part in PARTS:
            for folder, _, files in os.walk(os.path.join(CRATES, crate, part)):
                for path in [folder] + [os.path.join(folder, name) for name in files]:
                    newest = max(newest, os.stat(path).st_mtime)
    return newest


@contextlib.contextmanager
def held(crates, say):
    """Keeps other runs of `rt` out of these crates' own folders, by the locks that it takes itself."""
    with contextlib.ExitStack() as stack:
        for crate in sorted(crates):
            folder = os.open(os.path.join(CRATES, crate), os.O_RDONLY)
            stack.callback(os.close, folder)
            try:
                fcntl.flock(folder, fcntl.LOCK_EX | fcntl.LOCK_NB)
            except BlockingIOError:
                say(f"waiting for another run that works on {crate}")
                fcntl.flock(folder, fcntl.LOCK_EX)
        yield


def move(source, target):
    """Moves what `rt` made from one out/ to another."""
    os.makedirs(target, exist_ok=True)
    for part in MADE:
        if os.path.isdir(os.path.join(source, part)):
            shutil.rmtree(os.path.join(target, part), ignore_errors=True)
            os.rename(os.path.join(source, part), os.path.join(target, part))


class Room:
    """Where one crate is proved, from when the crates below it are built."""

    def __init__(self, crate, folder, log, jobs, memory):
        self.crate, self.log, self.jobs, self.memory, self.began = crate, log, jobs, memory, time.time()
        self.room = os.path.join(folder, crate)
        self.place = os.path.join(self.room, "crates", crate)
        self.furnish(with_those_below(crate))
        words = ["rt", "lib", "--jobs", str(jobs)]
        with open(log, "w", encoding="utf-8") as out:
            self.process = subprocess.Popen(words, cwd=self.place, stdin=subprocess.DEVNULL, stdout=out, stderr=out)

    def furnish(self, crates):
        """Brings in all that the run reads: these crates, their lines of crates.txt, and what an earlier run kept."""
        for name in crates:
            for part in (*PARTS, *(["out/rlib"] if name != self.crate else [])):
                path = os.path.join("crates", name, part)
                if os.path.isdir(os.path.join(TOP, path)):
                    shutil.copytree(os.path.join(TOP, path), os.path.join(self.room, path), copy_function=os.link)
        os.link(os.path.join(TOP, "HANDLES"), os.path.join(self.room, "HANDLES"))
        with open(os.path.join(TOP, "crates.txt"), encoding="utf-8") as every:
            own = [line for line in every if line.partition(":")[0].split()[:1] in ([name] for name in crates)]
        with open(os.path.join(self.room, "crates.txt"), "w", encoding="utf-8") as file:
            file.writelines(own)
        move(os.path.join(CRATES, self.crate, "out"), os.path.join(self.place, "out"))

    def end(self):
        """Ends it, where it still runs, and keeps what it made. `rt` ends all that it started when it ends."""
        self.process.kill()
        self.process.wait()
        move(os.path.join(self.place, "out"), os.path.join(CRATES, self.crate, "out"))
        shutil.rmtree(self.room)


class Build:
    """The crates that are to be built, lowest first, of which the last is a program; which of them are being built, and
    how many seconds those took that were."""

    def __init__(self, crates, folder, say):
        *self.waiting, self.program = crates
        self.named, self.folder, self.say = stands_on(), folder, say
        self.weights = {crate: weight(crate) for crate in crates}
        self.chains = chains(crates, self.weights)
        self.processors, self.memory = len(os.sched_getaffinity(0)), free_memory()
        self.rooms, self.took, self.began = [], {}, time.time()

    def run(self):
        with held(self.waiting, self.say):
            self.build_libraries()
        began = time.time()
        with open(self.log(self.program), "w", encoding="utf-8") as out:
            words, place = ["rt", "run", "--", "--help"], os.path.join(CRATES, self.program)
            ended = subprocess.run(words, cwd=place, stdin=subprocess.DEVNULL, stdout=out, stderr=out, check=False)
        if ended.returncode:
            raise Failed(self.program, self.log(self.program))
        self.say(f"all proved: {self.program} ({time.time() - began:.0f} s)")

    def log(self, crate):
        return os.path.join(self.folder, crate + ".log")

    def build_libraries(self):
        rooms = os.path.join(self.folder, "rooms")
        shutil.rmtree(rooms, ignore_errors=True)        # of a run that was killed
        try:
            while self.waiting or self.rooms:
                self.begin(rooms)
                time.sleep(PAUSE)
                for room in [room for room in self.rooms if room.process.poll() is not None]:
                    self.close(room)
        finally:
            for room in self.rooms:
                room.end()
            shutil.rmtree(rooms, ignore_errors=True)

    def begin(self, rooms):
        """Begins what can be begun, the heaviest chain first."""
        left = self.weights.keys() - self.took.keys()
        ready = [crate for crate in self.waiting if left.isdisjoint(self.named[crate])]
        ready.sort(key=self.chains.get, reverse=True)
        for number, crate in enumerate(ready):
            # a run keeps about two of three jobs busy
            idle = self.processors * 3 // 2 - sum(room.jobs for room in self.rooms)
            free = self.memory - sum(room.memory for room in self.rooms)
            least = A_RUN + A_LINE * self.weights[crate]
            share = self.jobs(crate, idle * self.weights[crate] / sum(self.weights[other] for other in ready[number:]))
            jobs = min(share, int((free - least) / A_JOB))
            if self.rooms and min(idle, jobs) < 1:
                return
            self.waiting.remove(crate)
            jobs = max(jobs, 1)
            self.rooms.append(Room(crate, rooms, self.log(crate), jobs, least + A_JOB * jobs))

    def jobs(self, crate, share):
        """How many jobs it gets where so many are its share: a small one has nothing for a second."""
        return min(max(round(share), 2), MOST_JOBS, self.processors) if lines(crate, "src") >= LARGE else 1

    def close(self, room):
        self.rooms.remove(room)
        room.end()
        if room.process.returncode:
            raise Failed(room.crate, room.log)
        self.tell(room.crate, time.time() - room.began)

    def tell(self, crate, seconds):
        """Notes that it took so long, and says how far all is."""
        self.took[crate] = seconds
        minutes = round(self.seconds_left() / 60)
        left = f"some {minutes} minutes left" if minutes > 1 else "a minute or less is left"
        self.say(f"{len(self.took)} of {len(self.weights)} proved: {crate} ({seconds:.0f} s); {left}")

    def seconds_left(self):
        """By what a line took so far: for all that is left, as much at once as so far, or for the heaviest chain."""
        done = sum(self.weights[crate] for crate in self.took)
        alone, together = sum(self.took.values()) / done, (time.time() - self.began) / done
        left = {crate: self.weights[crate] for crate in self.weights if crate not in self.took}
        for room in self.rooms:
            left[room.crate] = max(left[room.crate] - (time.time() - room.began) / alone, 0)
        chain = max((self.chains[crate] - self.weights[crate] + left[crate] for crate in left), default=0)
        return max(together * sum(left.values()), alone * chain)
