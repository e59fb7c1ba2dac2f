"""Which edits `.ci/edits` tries: after a change of a crate or of the kit, and by days; and whether
the kit has all that it uses (tools/toolchain.py)."""
import os
import shutil
import subprocess
import sys
import tempfile

SECONDS = 600

from lib.paths import TOP

import refused

# A small repository: `high` stands on `low`, and `other` on neither.
FILES = {
    "crates.txt": "# NAME: USES\nlow:\nhigh: low thiserror\nother:\n",
    "crates/low/src/lib.rt": "pub fn low() {}\n",
    "crates/low/specs/Lib.antt": "-- low\npub mod Low\n",
    "crates/low/proofs/low/Lib.antt": "pub mod Low\n",
    "crates/low/edits/a.edit": "file: src/lib.rt\n",
    "crates/low/edits/b.edit": "file: src/lib.rt\n",
    "crates/high/src/lib.rt": "pub fn high() {}\n",
    "crates/high/edits/a.edit": "file: src/lib.rt\n",
    "crates/other/src/lib.rt": "pub fn other() {}\n",
    "crates/other/edits/a.edit": "file: src/lib.rt\n",
    refused.LINES: "",
}
OF_LOW, OF_HIGH, OF_OTHER = {"low/a.edit", "low/b.edit"}, {"high/a.edit"}, {"other/a.edit"}
ALL, KIT = OF_LOW | OF_HIGH | OF_OTHER, "a kit"

# What changes, to what, and which edits have to be tried again for that.
CHANGES = (
    ("a source of its crate", "crates/high/src/lib.rt", "pub fn high() { }\n", OF_HIGH),
    ("a new file of its crate", "crates/high/src/more.rt", "", OF_HIGH),
    ("a source below", "crates/low/src/lib.rt", "pub fn low() { }\n", OF_LOW | OF_HIGH),
    ("a spec below", "crates/low/specs/Lib.antt", "pub mod High\n", OF_LOW | OF_HIGH),
    ("a proof below", "crates/low/proofs/low/Lib.antt", "pub mod High\n", OF_LOW | OF_HIGH),
    ("a comment of a source", "crates/low/src/lib.rt", "/// It.\npub fn low() {}\n", set()),
    ("a comment of a spec", "crates/low/specs/Lib.antt", "-- Low\npub mod Low\n", set()),
    ("the line of low", "crates.txt", "low: hex\nhigh: low thiserror\nother:\n", OF_LOW | OF_HIGH),
    ("the edit", "crates/low/edits/b.edit", "file: src/lib.rt\n\n", {"low/b.edit"}),
    ("what was built", "crates/low/out/stamp", "new", set()),
    ("a comment in crates.txt", "crates.txt", "low:\nhigh: low thiserror\nother:\n", set()),
)

# A crate that the prover checks in seconds, and two edits, of which it has to refuse the first.
TINY = {
    "crates.txt": "tiny:\n",
    "crates/tiny/src/lib.rt": """#![tactic(auto)]

ghost use Rattle.std.specs.Prelude.{◌≡◌};

pub fn same(x: usize) -> usize
    ensures { result ≡ x }
{
    x
}

pub fn alike(x: usize) -> usize
    ensures { result ≡ x }
{
    let y = x;
    y
}
""",
}
WRONG = "file: src/lib.rt\nfn: tiny::same\nold:     x\nnew:     0\n"
HARMLESS = "file: src/lib.rt\nfn: tiny::alike\nold:     let y = x;\nnew:     let y: usize = x;\n"

# Prints the edits that have to be tried, or notes that these were refused, which nobody tried.
ASKS = """
import sys
sys.dont_write_bytecode = True
sys.path.insert(0, "tools")
import programs
edits = programs.program_at(".ci/edits", "edits")
book = edits.book()
book.note(sys.argv[1:], sys.argv[1:])
print(*sorted(book.to_try(edits.refused.today())))
"""


def written(folder, files):
    """Writes these files below a folder."""
    for path, text in files.items():
        os.makedirs(os.path.dirname(f"{folder}/{path}"), exist_ok=True)
        with open(f"{folder}/{path}", "w", encoding="utf-8") as it:
            it.write(text)


def free_day(edits):
    """A day on which none of these edits is due."""
    return next(it for it in range(refused.DAYS) if not any(refused.is_due(e, it) for e in edits))


def change_mistakes():
    """What is wrong with the edits that are tried after a change."""
    day = free_day(ALL)
    for what, path, text, wanted in CHANGES:
        with tempfile.TemporaryDirectory() as folder:
            written(folder, FILES)
            refused.write(folder, refused.sums_of(folder, KIT))
            if tried := refused.Book(folder, KIT).to_try(day):
                yield f"before a change it tries {sorted(tried)}"
            written(folder, {path: text})
            tried = refused.Book(folder, KIT).to_try(day)
            if tried != wanted:
                yield f"after a change of {what} it tries {sorted(tried)}, and not {sorted(wanted)}"


def kit_mistakes():
    """What is wrong where the kit changes, or the folder is another."""
    with tempfile.TemporaryDirectory() as folder, tempfile.TemporaryDirectory() as copy:
        written(folder, FILES)
        written(copy, FILES)
        sums = refused.sums_of(folder, KIT)
        tried = refused.to_try(refused.sums_of(folder, "another kit"), sums, free_day(ALL))
        if tried != ALL:
            yield f"with another kit it tries {sorted(tried)}"
        if refused.sums_of(copy, KIT) != sums:
            yield "the checksums are others in another folder"
        if sums.keys() != ALL or len({*sums.values()}) != len(ALL):
            yield f"the checksums are {sums}"


def day_mistakes():
    """What is wrong with the edits that are tried by their day, though their lines stand."""
    sums = {f"crate{it}/edit.edit": "" for it in range(2000)}
    tried = [refused.to_try(sums, sums, day) for day in range(700_000, 700_000 + refused.DAYS)]
    found = set().union(*tried)
    if sum(map(len, tried)) != len(sums) or found != sums.keys():
        yield f"in {refused.DAYS} days it tries {len(found)} of {len(sums)}, and not each once"
    if not all(len(sums) / 40 < len(it) < len(sums) / 10 for it in tried):
        yield f"by days it tries {[len(it) for it in tried]}"


def line_mistakes():
    """What is wrong with the lines that are written once edits were tried."""
    with tempfile.TemporaryDirectory() as folder:
        written(folder, {**FILES, refused.LINES: "gone/a.edit " + "0" * 64 + "\nno line\n"})
        book = refused.Book(folder, KIT)
        written(folder, {"crates/other/src/lib.rt": "pub fn another() {}\n"})
        book.note(ALL, ALL)
        if refused.read(folder) != {it: book.sums[it] for it in OF_LOW | OF_HIGH}:
            yield f"a crate changed as its edits were tried, and it wrote {refused.read(folder)}"
        book.note({"low/a.edit"}, {})
        if refused.read(folder).keys() != {"low/b.edit", "high/a.edit"}:
            yield f"an edit wasn't refused, and it wrote {refused.read(folder)}"
        with open(f"{folder}/{refused.LINES}", encoding="utf-8") as it:
            lines = it.readlines()
        if lines != sorted(lines):
            yield f"the lines aren't sorted: {lines}"


def names_for(texts):
    """A name for each of these edits of `tiny`, which is due neither today nor tomorrow."""
    days = [refused.today(), refused.today() + 1]
    names = (f"e{it}.edit" for it in range(1000))
    free = (it for it in names if not any(refused.is_due(f"tiny/{it}", day) for day in days))
    return [next(free) for _ in texts]


def real_mistakes():
    """What is wrong with a run of `.ci/edits` if two edits have a line, of which one is false: the
    prover doesn't refuse this edit."""
    names = names_for((WRONG, HARMLESS))
    texts = {f"crates/tiny/edits/{it}": text for it, text in zip(names, (WRONG, HARMLESS))}
    first, second = (f"tiny/{it}" for it in names)
    with tempfile.TemporaryDirectory() as folder:
        written(folder, {**TINY, **texts})
        for it in (".ci/edits", ".ci/refused.py", "tools/toolchain.py", "tools/programs.py"):
            os.makedirs(os.path.dirname(f"{folder}/{it}"), exist_ok=True)
            shutil.copy(f"{TOP}/{it}", f"{folder}/{it}")
        how = {"cwd": folder, "capture_output": True, "text": True, "timeout": SECONDS}

        def asks(*words):
            return subprocess.run([sys.executable, "-c", ASKS, *words], **how, check=True).stdout

        asks(first, second)
        ran = subprocess.run([".ci/edits"], **how, check=False)
        if ran.returncode or not ran.stdout.endswith("; refused: 0\n2 passed, 0 failed\n"):
            yield f"two edits stand, and with status {ran.returncode} it wrote {ran.stdout!r}"
        ran = subprocess.run([".ci/edits", "--all"], **how, check=False)
        if ran.returncode != 1 or not ran.stdout.endswith("; refused: 1\n1 passed, 1 failed\n"):
            yield f"a line is false, and with status {ran.returncode} it wrote {ran.stdout!r}"
        if refused.read(folder).keys() != {first}:
            yield f"of {first} and {second}, of which it refused one, it has {refused.read(folder)}"
        if asks() != f"{second}\n":
            yield f"it would try {asks()!r} then, and not {second}"
        written(folder, {"crates.txt": "tiny: hex\n"})
        if asks() != f"{first} {second}\n":
            yield f"it would try {asks()!r} after a change, and not both"


def kit_here_mistakes():
    """What the kit here lacks of what we use beside its commands."""
    how = {"capture_output": True, "text": True, "timeout": SECONDS, "check": False}
    ran = subprocess.run([f"{TOP}/tools/toolchain.py"], **how)
    if ran.returncode:
        yield f"tools/toolchain.py printed {ran.stdout!r} {ran.stderr!r}"


def all_mistakes():
    """What is tried, with what is wrong in it."""
    yield "edits after a change", change_mistakes()
    yield "edits after another kit", kit_mistakes()
    yield "edits by their day", day_mistakes()
    yield "the lines of refused edits", line_mistakes()
    if shutil.which("rt"):
        yield "a false line of an edit", real_mistakes()
        yield "the private modules of the kit", kit_here_mistakes()
    else:
        print("tests/edits.py: there is no `rt` on the path, so no edit is tried", flush=True)
