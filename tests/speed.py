"""How fast stations send a small file, beside a plain program. `by_hand/speed.py` measures more."""
from lib.choices import chance_of
from lib.speeds import CASES, compared
from lib.waiting import SLACK

# How often tests/run tries each, where a datagram is lost.
TRIES = 5


def slowness_mistakes(program, size=10_000_000, part=5):
    """What is wrong where stations have not even a part of the ratio that is wanted, with a small
    file. A datagram that the system lets go of costs them a second, after which it is asked for
    again: so the best of some runs counts. On a busy machine no ratio is wrong (SLACK), but
    it is printed."""
    octets = chance_of(42).randbytes(size)
    for title, zone, segment, wanted in CASES:
        told = []
        for _ in range(TRIES):
            try:
                own, plain, ratio = compared(program, octets, zone, segment)
            except OSError as error:
                told.append(f"{title}: {error}")
                continue
            if ratio >= wanted / part:
                break
            told.append(f"{title}: {own}, and plainly {plain}: a ratio of {ratio:.3f}")
            if not own:
                yield told[-1]
        else:
            print(f"tests/run: {told[-1]}", flush=True)
            if SLACK <= 1:
                yield told[-1]


def lone_mistakes(program):
    """What tests/run tries with nothing beside it, and what is wrong in it."""
    yield "the speed of stations", slowness_mistakes(program)
