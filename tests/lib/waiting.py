"""How tests wait, and how they judge rules of time on a busy machine."""
import os
import time

# For how many seconds a test waits for a condition.
SECONDS = 200

# What a busy machine may take beyond a rule of time, in seconds. Where nothing else runs, SLACK=1
# shows that stations keep these rules. What waits goes on at once when it has what it waits for.
SLACK = float(os.environ.get("SLACK", "30"))

# In one of so many trials a rule has to hold that SLACK doesn't ease.
TRIALS = 5


def waits_for(what, seconds=SECONDS):
    """Whether this comes true within so many seconds."""
    end = time.monotonic() + seconds
    while not what() and time.monotonic() < end:
        time.sleep(0.02)
    return what()


class Timed(str):
    """A mistake of time, such as a busy machine may make once."""


def in_one_of(times, trial):
    """What is wrong in so many trials, at most: a rule of time has to hold in one of them, and all
    else in each that is made."""
    for _ in range(times):
        wrong = list(trial())
        yield from (it for it in wrong if not isinstance(it, Timed))
        timed = [it for it in wrong if isinstance(it, Timed)]
        if not timed:
            return
    yield from timed
