"""Outages of a link between two stations, second by second, by the clock of a script of `sim`.

One PDU of a put is lost in second 0: its EOF with all before it, a NAK, or the Finished. By the
defaults it is sent again in the seconds 10, 20 and 30, its limit. The link is down from a second
until another one: both stations get the time in each second, and what they send then is lost. If
the link is up again in second 29 or 30, the put must be complete. If it is up in second 31, the
last try was lost too, and the transaction must end by its limit in second 40.
"""

SETUP = "set inactivity_time 1000\nfile 1 a.txt hello\nput 1 a.txt b.txt\nspread 1\n"

# What is lost in second 0, by what arrives then; and what ends the transaction if the last try is
# lost.
FIRST = [
    ("EOF", "strike 1 3\n", "1 fault 1:1 1\n"),
    ("NAK", "strike 1 2\ndeliver 1\nspread 2\ndeliver 2\nstrike 2\n", "2 fault 1:1 7\n"),
    ("Finished", "deliver 1 3\nspread 2\ndeliver 2\nstrike 2\n", "2 fault 1:1 1\n"),
]
DOWN = "spread 1\nstrike 1 99\nspread 2\nstrike 2 99\n"
LAST_TRY, ENDS = 30, 50


def second(now, begin, end):
    """What happens in a second if the link is down from one second until another one."""
    return f"tick 1 {now}\ntick 2 {now}\n" + (DOWN if begin <= now < end else "settle\n")


def script(lost, begin, end):
    """A script whose link is down so, after what is lost in second 0."""
    down = DOWN if begin == 0 else ""
    return SETUP + lost + down + "".join(second(it, begin, end) for it in range(1, ENDS))


def outage_mistakes(program, lost, begin, end, fault):
    """What is wrong with a put that such an outage befalls."""
    is_complete = end <= LAST_TRY
    status, out, _, _ = program.run(["sim"], script(lost, begin, end))
    told = out.endswith(f"complete {1 if is_complete else 0} of 1\n")
    if not told or (status == 0) != is_complete or (fault in out) == is_complete:
        yield f"a link that is down until second {end}: with status {status} it wrote\n{out[:2000]}"


def all_mistakes(program):
    """What is tried, with what is wrong in it."""
    for name, lost, fault in FIRST:
        for begin in (0, 5, 10):
            what = f"a lost {name}, and a link that is down from second {begin} on"
            ends = (LAST_TRY - 1, LAST_TRY, LAST_TRY + 1)
            found = (outage_mistakes(program, lost, begin, it, fault) for it in ends)
            yield what, [wrong for one in found for wrong in one]
