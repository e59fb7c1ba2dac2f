"""How frames may be spread over time at a rate."""
import bisect

from lib.waiting import Timed


def crowd_mistakes(times, rate):
    """What is wrong where more frames lie in some second than the rate and a few. At a high rate
    some more may: between its look at the clock and its send a station may have to wait."""
    for at, start in enumerate(times):
        count = bisect.bisect_left(times, start + 1) - at
        if count > rate + 8 + rate // 200:
            after = start - times[0]
            yield Timed(f"{count} frames in a second, {after:.2f} s after the first")
            return


def silence_mistakes(times, rate):
    """What is wrong where nothing is sent for too long."""
    gaps = [(next_one - it, it - times[0]) for it, next_one in zip(times, times[1:])]
    longest, at = max(gaps, default=(0, 0))
    if longest > 3 / rate + 0.6:
        text = f"nothing is sent for {longest:.2f} s, {at:.2f} s after the first frame"
        yield Timed(text)
