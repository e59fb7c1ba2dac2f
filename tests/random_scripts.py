"""Scripts that chance makes, the same ones for each SEED. Each must complete all of its puts.

Twenty lose nothing and settle. Twenty lose frames, from 10 to 70 of a hundred, and recover. Four
settle, lose only what belongs to two last puts, and recover with limits of which some are zero. Of
the frames that arrive or are lost some are those sent first, and some the oldest of one lane.
Beside these are 64 without chance: each choice of the six frames of a put is lost.
"""
from lib.choices import seeds

MASK = 2**64 - 1

SETTLING_SETUP = """\
set segment 100
set eof_limit 255
set nak_limit 255
set finished_limit 255
set inactivity_time 4294967295
file 1 a.txt hello
fill 1 long 1000 41
fill 2 a.txt 0 00
fill 2 long 2345 7E
"""

# A wide file has 200 segments, so that its receiver may have more than 32 gaps.
RECOVERING_SETUP = """\
set segment 10
set on_inactivity 2
file 1 a.txt hello
fill 1 long 300 41
fill 1 wide 2000 55
fill 2 a.txt 0 00
fill 2 long 295 7E
fill 2 wide 1995 AA
"""

PUTS = ["put 1 a.txt b.txt", "put 1 long c.txt", "put 2 a.txt b.txt", "put 2 long c.txt"]
PROMPTS = ["prompt 1 1:1 nak", "prompt 1 1:2 keep", "prompt 2 2:1 keep", "prompt 2 2:2 nak"]
MOVES = [
    "poll 1",
    "poll 1\npoll 1\nflush 1",
    "poll 2\npoll 2\npoll 2",
    "flush 1",
    "flush 2",
    "spread 1",
    "burst 2",
    "spread 2",
    "deliver 1",
    "deliver 1 3",
    "deliver 2",
    "deliver 2 2",
    "deliver 1 dir",
    "deliver 1 data 2",
    "deliver 2 data",
]
# What a frame is taken of: the one sent first, or the oldest of a lane.
LANES = ["", "", " dir", " data"]
SUSPENSIONS = ["suspend 1 1:1", "suspend 2 1:1", "suspend 1 2:1", "suspend 2 2:1"]
RESUMES = ["resume 1 1:1", "resume 2 1:1", "resume 1 2:1", "resume 2 2:1"]
ALL_RESUMED = "".join(f"{it}\n" for it in RESUMES)
SENDINGS = ["spread 1", "spread 2", "burst 1", "burst 2"]

# In both rows there are twenty, and the first four are puts.
SETTLING_LINES = PUTS + PROMPTS + MOVES
RECOVERING_LINES = PUTS + PROMPTS + SUSPENSIONS + RESUMES + SENDINGS

# Their frames carry one PDU each.
LAST_PUTS = "put 1 wide d.txt\nput 2 wide d.txt\nspread 1\nspread 2\n"

# Limits of which some are zero, and what arrives of the last puts and what is lost: all of it, so
# that only the EOF is sent again, or the answers to the Finished, so that only the Finished is.
ALL_LOST = "strike 1 999\nstrike 2 999\n"
ALL_HEARD = "deliver 1 999\ndeliver 2 999\nspread 1\nspread 2\n"
ZEROS = [
    ("set nak_limit 0\nset finished_limit 0\n", ALL_LOST),
    ("set eof_limit 0\n", ALL_HEARD + ALL_HEARD + ALL_LOST),
]


def after(number):
    """The number behind this one in a row of numbers that looks random."""
    return (number * 6364136223846793005 + 1442695040888963407) & MASK


def station(number):
    """The station that such a number chooses."""
    return 1 if number < 2**63 else 2


def frames(number, count, lost):
    """Lets frames arrive, or go lost, so many of a hundred; and the last number."""
    lines = []
    for _ in range(count):
        number = after(number)
        verb = "strike" if (number >> 33) % 100 < lost else "deliver"
        lane = LANES[(number >> 45) % len(LANES)]
        lines.append(f"{verb} {station(number)}{lane}\n")
    return "".join(lines), number


def lines(number, choices, moves, time):
    """Forty lines, behind each what the moves do and a tick; and how many of them are puts."""
    script, puts = [], 0
    for step in range(40):
        number = after(number)
        place = (number >> 33) % len(choices)
        puts += place < 4
        moved, number = moves(number)
        script.append(f"{choices[place]}\n{moved}tick {station(number)} {time(step)}\n")
    return "".join(script), puts


def settling(seed):
    """A script without losses."""
    body, puts = lines(seed, SETTLING_LINES, lambda it: ("", it), lambda step: step * 10)
    return f"{SETTLING_SETUP}{body}settle\n", puts


def losing(seed):
    """A script with losses. Before its last tick a timer of 10 expires less often than it may."""
    limit, lost = [1, 2, 3, 255][seed % 4], 10 + seed % 20 * 60 // 19
    limits = f"set eof_limit {limit}\nset nak_limit {limit}\nset finished_limit {limit}\n"
    moves = lambda number: frames(number, 20, lost)
    body, puts = lines(seed, RECOVERING_LINES, moves, lambda step: step * limit * 10 // 40)
    last, _ = frames(seed, 500, lost)
    return f"{RECOVERING_SETUP}{limits}{body}{LAST_PUTS}{last}{ALL_RESUMED}recover\n", puts + 2


def late(seed):
    """A script that settles, and then loses what belongs to last puts. No timer expires before."""
    limits, losses = ZEROS[seed % 2]
    moves = lambda number: frames(number, 20, 0)
    body, puts = lines(seed, RECOVERING_LINES, moves, lambda step: step * 10 // 40)
    end = f"{ALL_RESUMED}settle\n{LAST_PUTS}{losses}recover\n"
    return f"{RECOVERING_SETUP}{limits}{body}{end}", puts + 2


# A put of six frames: four of directives, of which the third has the end of the Metadata and the
# begin of the EOF, and two of file data.
SIX = "set zone 16\nset on_inactivity 2\nfile 1 a.txt hello\nput 1 a.txt b.txt\nburst 1\n"


def chosen(lost):
    """A script in which those of the six frames are lost whose bits are 1, the first one's the
    lowest."""
    verbs = ("strike" if lost >> place & 1 else "deliver" for place in range(6))
    return SIX + "".join(f"{it} 1\n" for it in verbs) + "recover\n", 1


def scripts():
    """All of them: a name, the script, and how many puts it has."""
    for seed in seeds(20):
        yield f"script {seed} without losses", *settling(seed)
    for seed in seeds(20):
        yield f"script {seed} with losses", *losing(seed)
    for seed in seeds(4):
        yield f"script {seed} with limits of zero", *late(seed)
    for lost in range(64):
        yield f"a put of six frames, of which {lost:06b} are lost", *chosen(lost)


def script_mistakes(program, script, puts):
    """What is wrong with the run of a script that completes all of its puts."""
    status, out, _, _ = program.run(["sim"], script)
    if status or not out.endswith(f"complete {puts} of {puts}\n") or "StillArmed" in out:
        yield f"with status {status} it wrote\n{out[:2000]}for the script\n{script[:2000]}"


def all_mistakes(program):
    """What is tried, with what is wrong in it."""
    for name, script, puts in scripts():
        yield name, script_mistakes(program, script, puts)
