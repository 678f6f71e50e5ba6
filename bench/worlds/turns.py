"""Times two simulators on a schedule, three turns each, and compares what they print."""
import subprocess
import sys
import time


def told(words):
    """The best time of three turns, and what was printed."""
    best = None
    for _ in range(3):
        start = time.monotonic()
        printed = subprocess.run(words, stdout=subprocess.PIPE, check=True).stdout
        passed = time.monotonic() - start
        best = passed if best is None else min(best, passed)
    return best, printed


def main():
    faults, schedule, hsim, reference = sys.argv[1:]
    with open(schedule, "rb") as lines:
        events = sum(1 for _ in lines) - 1
    (own, text), (plain, wanted) = told([hsim, schedule]), told([reference, schedule])
    if text != wanted:
        sys.exit(f"{schedule}: the two printed different things")
    print(f"f {faults}, {events} events: hsim {own / events * 1e6:.1f}, the reference {plain / events * 1e6:.1f} microseconds an event")


if __name__ == "__main__":
    main()
