"""What the documents show, name and count: README.md beside the program, pages, headings, files,
octets that no station sent; which crates stand on which, and what their types are called."""
import glob
import os
import re
import subprocess

from lib.paths import TOP

import programs

SECONDS = 600
SCRIPT, CHART = "examples/lost_frame.script", "examples/lost_frame.mmd"
FOLDERS = "tests|tools|examples|packaging|bindings|crates|docs|\\.ci"

# Pages whose names of code have to be in the sources, and words there that are no such names.
OF_CODE = ("PROMISES", "DEFINITIONS", "PROOFS", "PROOF_NOTES", "DECISIONS", "ARCHITECTURE")
NO_NAMES = {"try_"}
SOURCES = (
    "crates/*/src/**/*.rt",
    "crates/*/specs/**/*.antt",
    "crates/*/proofs/**/*.antt",
    "crates/*/edits/*.edit",
    "tests/bench/*.rs",
    "bindings/*/*.h",
    "bindings/rust/src/*.rs",
    "tests/*.py",
    "tests/lib/*.py",
)
# What runs a real station, and what it may not stand on.
RUNNING = (
    "cfdp_c",
    "cfdp_command_line",
    "cfdp_control",
    "cfdp_datagrams",
    "cfdp_log",
    "cfdp_operator",
    "cfdp_service",
    "cfdp_setup",
    "cfdp_spool",
    "cfdp_watch",
)
SIMULATOR = "link_sim"
# A type that a crate has for others, and the one name that two crates give (docs/DECISIONS.md, "A
# name has one meaning").
TYPE = r"(?m)^pub (?:struct|enum|trait|type) (\w+)"
OF_TWO = {"HeldFolder"}
COMMANDS = ([], ["sim"], ["dump"], ["loop"], ["station"], ["ask"])

# What docs/PROOFS.md says of each group of questions, in the order of the transcripts: their verb,
# how many of them go together, and which of their numbers is added up, 0 for what was tried and 1
# for what was refused.
GROUPS = (
    ("prefixes", 14, 0, "({} at each)"),
    ("replaced", 14, 0, "({} at each)"),
    ("prefixes", 14, 0, "({} at each)"),
    ("replaced", 14, 0, "({} at each)"),
    ("prefixes", 2, 0, "({} and "),
    ("replaced", 2, 0, "({} and "),
    ("prefixes", 3, 0, " and {});"),
    ("replaced", 3, 0, " and {})."),
    ("replaced", 5, 0, "so ({}); and the proper prefixes of these"),
    ("prefixes", 5, 0, "frames ({})."),
    ("storm", 4, 0, ": {} frames, half"),
    ("storm", 4, 1, "Of the million frames {} are refused"),
)

NAME = re.compile(r"[A-Za-z_][\w']*")


def text_of(path):
    """The text of a file of this repository."""
    with open(f"{TOP}/{path}", encoding="utf-8") as it:
        return it.read()


def pages():
    """The documents, each with its text."""
    for pattern in ("*.md", "docs/*.md", "tests/*.md", "bindings/*/*.md"):
        for path in sorted(glob.glob(pattern, root_dir=TOP)):
            yield path, text_of(path)


def helps(program, commands):
    """What the program prints for `--help`, of each of these commands."""
    how = {"capture_output": True, "text": True, "timeout": SECONDS, "check": True}
    for words in commands:
        yield " ".join(words), subprocess.run([program.path, *words, "--help"], **how).stdout


def shown_mistakes(program):
    """What README.md shows otherwise than the program does."""
    how = {"capture_output": True, "text": True, "timeout": SECONDS, "cwd": TOP, "check": True}
    report = subprocess.run([program.path, "sim", SCRIPT], **how).stdout.split("\n")[:-1]
    readme = text_of("README.md")
    drawing = list(programs.tool("draw").drawn(text_of(CHART)))
    for what, lines in (("the drawing", drawing), ("the report", report)):
        if "".join(f"    {it.rstrip()}\n" for it in lines) not in readme:
            yield f"README.md doesn't show {what} of {SCRIPT}: {lines}"


def plain_code(text):
    """The lines of code without what borrows, what may change, and indents."""
    return [re.sub(r"&?\bmut |&", "", it).strip() for it in text.split("\n")]


def caller_mistakes():
    """Code of README.md and of the head of `cfdp_station` that no proved caller has."""
    proved = "\n".join(plain_code(text_of("crates/callers/src/own_link.rt")))
    turn = re.search(r"(?ms)^ +station\.tick.*?^$", text_of("README.md"))[0]
    head = text_of("crates/cfdp_station/src/lib.rt").replace("//! ", "")
    made = re.search(r"(?ms)^let sends.*?^let mut station[^\n]*", head)[0]
    for what, code in (("README.md", turn), ("cfdp_station", made)):
        if "\n".join(plain_code(code)).strip() not in proved:
            yield f"crates/callers/src/own_link.rt doesn't have what {what} shows: {code}"


def headings_of(text):
    """The headings of a page, and the first words in bold of its paragraphs and items."""
    found = re.findall(r"^#+ (.*)$|^(?:- )?\*\*([^*]+?)[.:]?\*\*", text, re.M)
    return ["".join(it).replace("`", "") for it in found]


def linked(link):
    """What a link names, as it is named where there is no link."""
    is_above = os.path.isfile(f"{TOP}/{link[1]}")
    return link[1] if is_above else f"docs/{link[1]}"


def named_mistakes():
    """Pages, headings and files that a document names and that aren't there."""
    for path, text in pages():
        if path == "CHANGELOG.md":
            continue
        joined = " ".join(text.split())
        # A page of docs/ links another one by its name alone.
        joined = re.sub(r"\[\w+\]\((?:docs/)?([A-Z_]+\.md)\)", linked, joined)
        for page, heading in re.findall(r'docs/(\w+)\.md(?:,| \()? ?(?:"([^"]+)")?', joined):
            if not os.path.isfile(f"{TOP}/docs/{page}.md"):
                yield f"{path} names docs/{page}.md, which isn't there"
            elif heading:
                found = headings_of(text_of(f"docs/{page}.md"))
                if not any(it.startswith(heading) for it in found):
                    yield f"{path} names {heading!r} of docs/{page}.md, which isn't there"
        for file in re.findall(rf"`((?:{FOLDERS})/[\w./-]+)", joined):
            is_made = "/out" in file or "/NAME" in file
            if not is_made and not os.path.exists(f"{TOP}/{file}"):
                yield f"{path} names {file}, which isn't there"


def names_of_code():
    """All words of the sources, and the names of their files."""
    found = set(NO_NAMES)
    for pattern in SOURCES:
        for path in glob.glob(pattern, root_dir=TOP, recursive=True):
            found.add(os.path.basename(path).split(".")[0])
            found.update(NAME.findall(text_of(path)))
    return found


def is_module(name):
    """Whether this is the path of a module of some crate, or of a file here."""
    places = (f"crates/*/src/{name}.rt", f"crates/{name}*", f"crates/*/{name}*", name)
    return any(glob.glob(it, root_dir=TOP) for it in places)


def code_mistakes():
    """Names of modules that aren't there, and names with an underscore or a capital letter inside
    that aren't in the sources."""
    for page in ("ARCHITECTURE", "CONFORMANCE"):
        for name in re.findall(r"`([a-z_]+(?:/[a-z_]+)+)`", text_of(f"docs/{page}.md")):
            if not is_module(name):
                yield f"docs/{page}.md names the module {name}, which isn't there"
    there = names_of_code()
    for page in OF_CODE:
        for code in re.findall(r"`([^`]*)`", " ".join(text_of(f"docs/{page}.md").split())):
            for name in NAME.findall(code):
                if re.search(r"_|[a-z][A-Z]", name) and name not in there:
                    yield f"docs/{page}.md names {name}, which no source has"


def option_mistakes(program):
    """Options in the program's help that docs/FORMATS.md doesn't have, and the other way round."""
    formats, helped = text_of("docs/FORMATS.md"), set()
    for words, text in helps(program, COMMANDS):
        options = set(re.findall(r"--[a-z][a-z-]+", text))
        helped |= options
        for option in sorted(options):
            if not re.search(rf"{option}\b", formats):
                yield f"docs/FORMATS.md doesn't have {option} of {words}"
    for option in sorted(set(re.findall(r"`(--[a-z][a-z-]+)", formats)) - helped):
        yield f"docs/FORMATS.md has {option}, which no help has"


def below(crate, crates):
    """All crates of this repository that a crate stands on."""
    direct = {it for it in crates[crate] if it in crates}
    return direct.union(*(below(it, crates) for it in direct))


def direction_mistakes():
    """Crates of running stations that stand on the simulator, and so wait for its proofs."""
    lines = re.findall(r"(?m)^(\w+)(?: \w+)?:(.*)$", text_of("crates.txt"))
    crates = {name: uses.split() for name, uses in lines}
    for crate in RUNNING:
        if crate not in crates:
            yield f"crates.txt has no {crate}"
        elif SIMULATOR in below(crate, crates):
            yield f"{crate} stands on {SIMULATOR}: a running station may not"


def pictured_mistakes():
    """Crates that the picture in docs/ARCHITECTURE.md lacks, and names there that are no crates."""
    crates = set(re.findall(r"(?m)^(\w+)(?: \w+)?:", text_of("crates.txt")))
    section = text_of("docs/ARCHITECTURE.md").split("\n## The crates\n")[1].split("\n## ")[0]
    words = set(re.findall(r"[a-z]\w*", " ".join(re.findall(r"(?m)^    .*", section))))
    for crate in sorted(crates - words):
        yield f"docs/ARCHITECTURE.md, \"The crates\", doesn't have {crate}"
    for word in sorted({it for it in words if "_" in it} - crates):
        yield f"docs/ARCHITECTURE.md, \"The crates\", has {word}, which is no crate"


def type_mistakes():
    """Names of types that two crates give, each to a type of its own."""
    given = {}
    for lib in sorted(glob.glob("crates/*/src/lib.rt", root_dir=TOP)):
        crate = lib.split("/")[1]
        sources = sorted(glob.glob(f"crates/{crate}/src/**/*.rt", root_dir=TOP, recursive=True))
        own = set(re.findall(TYPE, "\n".join(text_of(it) for it in sources)))
        text = text_of(lib)
        named = re.findall(r"\w+", " ".join(re.findall(r"(?ms)^pub use (.*?);", text)))
        for name in own & {*named, *re.findall(TYPE, text)}:
            given.setdefault(name, []).append(crate)
    for name, crates in sorted(given.items()):
        if len(crates) > 1 and name not in OF_TWO:
            yield f"{name} is a type of its own in each of {', '.join(crates)}"


def length_mistakes(program):
    """Helps that don't fit on two screens of 50 lines and 80 columns. A usage may be wider."""
    for words, text in helps(program, (*COMMANDS, ["play"])):
        lines = text.splitlines()
        if len(lines) > 100:
            yield f"{words} --help has {len(lines)} lines"
        for line in lines:
            if len(line) > 80 and not line.startswith("Usage: "):
                yield f"{words} --help has a line of {len(line)} columns: {line}"


def word_mistakes(program):
    """Turns with a better word in pages, comments and helps, and how often some words stand."""
    words = programs.tool("words")
    yield from words.all_mistakes()
    for command, text in helps(program, (*COMMANDS, ["play"])):
        yield from words.turn_mistakes(f"{command} --help", enumerate(text.splitlines(), 1))


def contract_mistakes():
    """What is wrong with the contract that `tools/contract` prints."""
    how = {"capture_output": True, "text": True, "timeout": SECONDS}
    ran = subprocess.run([f"{TOP}/tools/contract", "World::settle"], **how)
    for wanted in ("pub fn settle(", "pub record Settles"):
        if ran.returncode or wanted not in ran.stdout:
            yield f"tools/contract doesn't print {wanted!r}: {ran.stdout}{ran.stderr}"


def tried_in_transcripts():
    """How many octets or frames each question tried, and how many of them were refused, by the
    verb of the question, in their order."""
    found, verb = {}, None
    text = text_of("tests/transcripts/strangers.txt").replace("\\\n", "")
    for line in text.split("\n"):
        told = re.fullmatch(r" (\d+) (\d+) (\d+)", line)
        if told and verb:
            found.setdefault(verb, []).append([int(it) for it in told.groups()])
        if not line.startswith(" "):
            asked = re.match(r"(prefixes|replaced|storm)\b", line)
            verb = asked and asked[1]
    return found


def count_mistakes():
    """What docs/PROOFS.md says of octets that no station sent, otherwise than transcripts do."""
    found, place = tried_in_transcripts(), {}
    text = " ".join(text_of("docs/PROOFS.md").split())
    for verb, count, which, words in GROUPS:
        first = place.get(verb, 0) if which == 0 else place[verb] - count
        place[verb] = first + count
        told = found.get(verb, [])[first : first + count]
        wanted = words.format(f"{sum(it[which] for it in told):,}")
        if len(told) != count or wanted not in text:
            yield f"docs/PROOFS.md doesn't tell {wanted!r} of {len(told)} times {verb!r}"
        if any(it[2] for it in told):
            yield f"something changed that had to stay, at {verb!r}"
    for verb, all_of_it in found.items():
        if place.get(verb) != len(all_of_it):
            yield f"there are {len(all_of_it)} questions {verb!r}, and not {place.get(verb)}"


def all_mistakes(program):
    """Titles with what is wrong."""
    yield "the documents: what README.md shows", shown_mistakes(program)
    yield "the documents: what they name", named_mistakes()
    yield "the documents: code of a caller", caller_mistakes()
    yield "the documents: names of the code", code_mistakes()
    yield "the documents: options of the program", option_mistakes(program)
    yield "the help of the program: its length", length_mistakes(program)
    yield "the documents: a contract with its definitions", contract_mistakes()
    yield "the documents: their words", word_mistakes(program)
    yield "the documents: octets that no station sent", count_mistakes()
    yield "the crates: a running station without the simulator", direction_mistakes()
    yield "the crates: their picture", pictured_mistakes()
    yield "the crates: one type for one name", type_mistakes()
