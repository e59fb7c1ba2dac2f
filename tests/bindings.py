#!/usr/bin/env python3
"""Builds and runs bindings/ and the examples over crates/cfdp_c/out/libcfdp_c.a (`.ci/archive`).

    tests/bindings.py                       all of it
    tests/bindings.py --archive PATH ..     over another archive
    tests/bindings.py --program PATH ..     with another cfdp_node for the transfer over UDP
    tests/bindings.py --after 'A passed, B failed'    counts these in the last line
    tests/bindings.py --figures             tells what the archive takes, no more

Compares cfdp.h and ffi.rs with the crate's sources, and the archive's names with them, and the code
that docs/EMBEDDING.md shows with bindings/c/tests/guide.c; compiles the headers, the examples (in
examples/c and examples/rust), calls.c and what stands in bindings/*/tests without warnings; runs
them, also under AddressSanitizer and valgrind; looks at headers and examples by cppcheck's MISRA
addon; and makes the pages of the crate for Rust, runs their examples and clippy. Where a machine
hasn't one of the compilers or checkers, a line says so. The last line is 'N passed, M failed'.
"""
import os
import re
import shutil
import subprocess
import sys
import tempfile

from lib.choices import chance_of
from lib.counting import Count, taken
from lib.paths import ARCHIVE, PROGRAM, TESTS, TOP
from lib.ports import free_ports, is_bound
from lib.processes import PATIENT
from lib.waiting import waits_for

CRATE, C, RUST = f"{TOP}/crates/cfdp_c", f"{TOP}/bindings/c", f"{TOP}/bindings/rust"
EXAMPLES = f"{TOP}/examples"
SECONDS = 1200

# The edition of the wrapper in Rust, and the version of clippy that was answered: another one says
# other things.
EDITION, CLIPPY = "2021", "clippy 0.1.95"

STRICT = ["-Wall", "-Wextra", "-Wpedantic", "-Werror", f"-I{C}"]
C99 = ["cc", "-std=c99", "-O2", *STRICT]
CPP = ["c++", "-std=c++17", "-O2", *STRICT]


def text_of(path):
    with open(path, encoding="utf-8") as it:
        return it.read()


# ---- the header, ffi.rs and the crate, as the same words

TYPES = {"uint8_t": "u8", "uint16_t": "u16", "uint32_t": "u32", "uint64_t": "u64"}
TYPES |= {"size_t": "usize", "bool": "bool", "void": "()", "cfdp_answer": "u32"}

# the structs of the header, and how the crate and ffi.rs name them
STRUCTS = {"cfdp_link": ("CfdpLink", "Link"), "cfdp_config": ("CfdpConfig", "Config")}
STRUCTS |= {"cfdp_station": ("CfdpStation", "Handle"), "cfdp_id": ("CfdpId", "Id")}
STRUCTS |= {"cfdp_indication": ("CfdpIndication", "Told"), "cfdp_pdu": ("CfdpPdu", "Pdu")}
STRUCTS |= {"cfdp_transaction": ("CfdpTransaction", "Listed")}
STRUCTS |= {"cfdp_file_info": ("CfdpFile", "FileInfo")}
STRUCTS |= {"cfdp_frame_drops": ("CfdpFrameDrops", "FrameDrops")}
STRUCTS |= {"cfdp_pdu_drops": ("CfdpPduDrops", "PduDrops")}
STRUCTS |= {"cfdp_sent_pdus": ("CfdpSentPdus", "SentPdus")}
STRUCTS |= {"cfdp_counts": ("CfdpCounters", "Counters")}
STRUCTS |= {"cfdp_security": ("CfdpSecurity", "Security")}
STRUCTS |= {"cfdp_journal_info": ("CfdpJournal", "JournalInfo")}


def plain(text):
    """The text without comments, attributes and clauses, each run of spaces as one."""
    text = re.sub(r"/\*.*?\*/", " ", text, flags=re.S)
    text = re.sub(r"//.*", " ", text)
    text = re.sub(r"#(\[[^\]]*\]|define.*|include.*|if.*|else.*|endif.*)", " ", text)
    return re.sub(r"\s+", " ", text)


def c_type(text, place):
    """The type of a declaration as `u8 count`, with what it points to."""
    found = re.fullmatch(r"(const )?(\w+) ?(\*?) ?(\w*)", text.strip())
    is_const, name, is_pointer = found[1], found[2], found[3]
    if is_pointer and name == "void":
        # octets that a call only reads
        return "&u8" if is_const else "pointer"
    # A handle is taken apart and put together by every call, so that Rust has to lend it whole;
    # for C it is const where the call leaves it as it was (`constancy_mistakes`).
    is_const = is_const and name != "cfdp_station"
    name = TYPES.get(name) or STRUCTS[name][place]
    return f"{'&' if is_const else '&mut '}{name}" if is_pointer else name


def c_field(word, kind):
    """A field of this type, or an array of it."""
    found = re.fullmatch(r"(\w+)\[(\d+)\]", word)
    return (found[1], f"[{kind}; {found[2]}]") if found else (word, kind)


def in_header(place):
    """The functions and the structs of the header, in the crate's words, or in those of ffi.rs."""
    text = plain(text_of(f"{C}/cfdp.h"))
    functions = {}
    for result, name, words in re.findall(r"(\w+) (cfdp_\w+)\(([^)]*)\);", text):
        words = [] if words == "void" else words.split(",")
        functions[name] = ([c_type(it, place) for it in words], TYPES[result])
    structs = {}
    for name, body in re.findall(r"typedef struct (\w+) \{([^}]*)\}", text):
        fields = []
        for it in filter(str.strip, body.split(";")):
            kind, names = re.fullmatch(r" ?((?:const )?\w+ \*?) ?(.*)", it).groups()
            fields += [c_field(word.strip(), c_type(kind, place)) for word in names.split(",")]
        structs[STRUCTS[name][place]] = fields
    return functions, structs


def rust_words(text, wide):
    """The arguments of a function, as the header passes them: a slice by pointer and length."""
    found = []
    for name, kind in re.findall(r"(\w+): ([^,]+)", text):
        kind = kind.strip()
        if wide and kind in ("&[u8]", "&mut [u8]"):
            found += [kind.replace("[u8]", "u8"), "usize"]
        elif kind != "Global":
            found.append(kind.replace("*const ", "&").replace("*mut ", "&mut "))
    return found


def rust_structs(text):
    """The fields of each struct of Rust's or Rattle's that C sees."""
    structs = {}
    for name, body in re.findall(r"#\[repr\(C\)\].*?pub struct (\w+) \{(.*?)\n\}", text, re.S):
        body = re.sub(r"ghost \w+: \{[^\n]*\n", "", body)
        structs[name] = re.findall(r"(\w+): (\[\w+; \d+\]|[\w:*& ]+)", plain(body))
    return structs


def in_crate():
    """The exports of the crate, and its structs."""
    functions, structs = {}, {}
    for name in sorted(os.listdir(f"{CRATE}/src")):
        text = text_of(f"{CRATE}/src/{name}")
        text = re.sub(r"//.*", "", text)
        structs |= rust_structs(text)
        exported = r'no_mangle\)\]\s+pub extern "C" fn (\w+)\(([^)]*)\)(?: -> (\w+))?'
        for name, words, result in re.findall(exported, text):
            functions[name] = (rust_words(re.sub(r"\s+", " ", words), True), result or "()")
    # what C sees of a handle: the allocator takes no octets
    structs["CfdpStation"] = [("at", "pointer"), *structs["CfdpStation"][1:]]
    return functions, structs


def in_ffi():
    """The functions that ffi.rs declares, and its structs."""
    text = text_of(f"{RUST}/src/ffi.rs")
    declared = re.search(r'\nextern "C" \{(.*?)\n\}', text, re.S)[1]
    functions = {}
    for name, words, result in re.findall(r"fn (\w+)\(([^)]*)\)(?: -> (\w+))?;", declared):
        functions[name] = (rust_words(re.sub(r"\s+", " ", words), False), result or "()")
    structs = rust_structs(text.split("mod heap")[0])
    structs["Handle"] = [("at", "pointer"), *structs["Handle"][1:2]]
    return functions, structs


def differences(what, found, wanted):
    for name in sorted({*found, *wanted}):
        if found.get(name) != wanted.get(name):
            yield f"{what} {name}: {found.get(name)}, in the header {wanted.get(name)}"


def declaration_mistakes():
    """Where the crate or ffi.rs declares something else than the header."""
    for place, (functions, structs) in enumerate((in_crate(), in_ffi())):
        wanted, wanted_structs = in_header(place)
        where = ("the crate's", "ffi.rs's")[place]
        yield from differences(f"{where} function", functions, wanted)
        structs = {it: structs.get(it) for it in wanted_structs}
        yield from differences(f"{where} struct", structs, wanted_structs)


def constancy_mistakes():
    """Where the header says const of a station that a call may change, or doesn't of another."""
    text = plain(text_of(f"{C}/cfdp.h"))
    const = set(re.findall(r"\w+ (cfdp_\w+)\(const cfdp_station \*", text))
    kept = set()
    for name in sorted(os.listdir(f"{CRATE}/src")):
        text = re.sub(r"//.*", "", text_of(f"{CRATE}/src/{name}"))
        exported = r'no_mangle\)\]\s+pub extern "C" fn (\w+)\([^)]*\)(.*?)\n\{'
        for call, clauses in re.findall(exported, text, re.S):
            # what becomes of an open station, by each clause that says it
            after = len(re.findall(r"\b(?:Becomes|Answers)\b", clauses))
            if after and clauses.count("(y ≡ x)") == after:
                kept.add(call)
    if const != kept:
        yield f"const in the header: {sorted(const)}; the station stays, by clauses: {sorted(kept)}"


def number_mistakes():
    """Where the header has other numbers than specs/Codes.antt."""
    header = text_of(f"{C}/cfdp.h")
    answers = header.split("/* ---- The standard's codes")[0]
    numbers = {int(it) for it in re.findall(r"^    CFDP_\w+ = (\d+)\b", answers, re.M)}
    spec = text_of(f"{CRATE}/specs/Codes.antt")
    wanted = {int(it) for it in re.findall(r"^\w[\w. ]* = (\d+)$", spec, re.M)}
    # those of the frames that are received
    wanted |= {int(it) + 4 for it in re.findall(r"^link_number \S+ = (\d+)$", spec, re.M)}
    # those of PDUs, from 50 on; no PDU is refused for a large file
    wanted |= {50}
    for path in ("cfdp_header/specs/Header.antt", "cfdp_directives/specs/Pdu/Faults.antt"):
        refusals = re.findall(r"^(?:pdu_)?refusal_number (\w+) = (\d+)$", of_crates(path), re.M)
        wanted |= {50 + int(it) for name, it in refusals if name != "LargeFile"}
    if numbers != wanted:
        yield f"the header has the answers {sorted(numbers)}, specs/Codes.antt has {sorted(wanted)}"


# the codes of the header, by what the specs say of them
CODES = {
    "CONDITION": "NO_ERROR no_error ACK_LIMIT positive_ack_limit FILESTORE filestore_rejection "
    "CHECKSUM file_checksum_failure FILE_SIZE file_size_error NAK_LIMIT nak_limit "
    "INACTIVITY inactivity CHECKSUM_TYPE unsupported_checksum_type SUSPENDED suspend_request "
    "CANCELLED cancel_request",
    "CHECKSUM": "MODULAR modular PROXIMITY_1 proximity CASTAGNOLI castagnoli IEEE ieee NULL null",
    "DELIVERY": "COMPLETE Complete INCOMPLETE Incomplete",
    "FILE": "DISCARDED Discarded REJECTED Rejected RETAINED Retained UNREPORTED Unreported",
    "STATUS": "UNDEFINED Undefined ACTIVE Active TERMINATED Terminated "
    "UNRECOGNIZED Unrecognized",
    "PDU": "FILE_DATA FileData EOF Eof FINISHED Finished ACK Ack METADATA Metadata NAK Nak "
    "PROMPT Prompt KEEP_ALIVE KeepAlive",
    "HANDLER": "CANCEL Cancel SUSPEND Suspend IGNORE Ignore ABANDON Abandon",
}


def of_crates(path):
    return text_of(f"{TOP}/crates/{path}")


def numbers_of_specs(kind):
    """The numbers that the specs give to the codes of a kind, by their names there."""
    codes = of_crates("cfdp_directives/specs/Pdu/Codes.antt")
    if kind == "PDU":
        said = r"^said_by h \((\w+) [^)]*\) =[^(]*\(pdu_of_kind (\d+) h\)"
        return re.findall(said, of_crates("cfdp_c/specs/Told.antt"), re.M)
    if kind == "HANDLER":
        text = of_crates("cfdp_c/specs/Config.antt")
        names = re.findall(r"(?:then|else) does\.(\w+)", text)
        return [(name, place) for place, name in enumerate(names)]
    plain = {"CONDITION": r"(\w+)", "CHECKSUM": r"(\w+)", "DELIVERY": r"delivery_code (\w+)"}
    plain |= {"FILE": r"file_status_code (\w+)", "STATUS": r"transaction_status_code (\w+)"}
    return re.findall(rf"^{plain[kind]} = (\d+)$", codes, re.M)


def code_mistakes():
    """Where a code of the header has another number than the specs give it."""
    header = text_of(f"{C}/cfdp.h")
    for kind, words in CODES.items():
        given = {name: int(number) for name, number in numbers_of_specs(kind)}
        words = words.split()
        for name, meant in zip(words[::2], words[1::2]):
            found = re.search(rf"^    CFDP_{kind}_{name} = (\d+)\b", header, re.M)
            if not found or int(found[1]) != given.get(meant):
                yield f"CFDP_{kind}_{name} is {found and found[1]}, {meant} is {given.get(meant)}"


def release_mistakes():
    """Each file that names another release than the header."""
    header = text_of(f"{C}/cfdp.h")
    release = re.search(r'#define CFDP_RELEASE "(.*)"', header)[1]
    parts = re.findall(r"#define CFDP_RELEASE_(?:MAJOR|MINOR|PATCH) (\d+)", header)
    if release.split("-")[0] != ".".join(parts):
        yield f"CFDP_RELEASE is {release}, its parts are {parts}"
    for path, pattern in (
        ("bindings/rust/Cargo.toml", r'^version = "(.*)"'),
        ("crates/cfdp_command_line/src/arguments.rt", r'^pub const VERSION: &str = "(.*)";'),
        ("CHANGELOG.md", r"^## \[(\d.*)\]"),
    ):
        found = re.search(pattern, text_of(f"{TOP}/{path}"), re.M)
        if not found or found[1] != release:
            yield f"cfdp.h is of release {release}, {path} of {found and found[1]}"


def guide_mistakes():
    """Blocks of the guide that the test in C hasn't, line by line."""
    program = re.sub(r"\s+", " ", text_of(f"{C}/tests/guide.c"))
    blocks = re.findall(r"(?:^(?: {4}.*)?\n)+", text_of(f"{TOP}/docs/EMBEDDING.md"), re.M)
    shown = [re.sub(r"\s+", " ", it).strip() for it in blocks if ";" in it]
    if not shown:
        yield "the guide shows no code"
    for it in shown:
        if it not in program:
            yield f"bindings/c/tests/guide.c hasn't: {it}"


def name_mistakes(archive):
    """Where the archive defines other names, or wants others, than the header says."""
    if not shutil.which("nm"):
        print("no nm: the archive's names aren't compared")
        return
    told = subprocess.run(["nm", archive], capture_output=True, text=True, check=True).stdout
    defined = {it for it in re.findall(r" T (\w+)", told)}
    wanted = {it for it in re.findall(r" U (\w+)", told)}
    functions = {*in_header(0)[0]}
    if {it for it in defined if it.startswith("cfdp_")} != functions:
        yield f"the archive defines {sorted(defined ^ functions)} and the header doesn't, or not so"
    allowed = {*re.findall(r"\b(rattle_\w+)\(", plain(text_of(f"{C}/cfdp_hooks.h")))}
    allowed |= {"memcpy", "memmove", "memset", "memcmp", "bcmp"}
    # for stations with folders
    allowed |= {"open", "read", "write", "pread", "lseek", "ftruncate", "fsync", "fdatasync"}
    allowed |= {"flock", "close", "readlink", "getdents64", "rename", "unlink", "mkdir", "rmdir"}
    if not wanted <= allowed:
        yield f"the archive wants {sorted(wanted - allowed)}"
    # So handles share nothing.
    kept = {it for it in re.findall(r" [BbCDdGgSs] (\S+)", told)}
    if kept:
        yield f"the archive has data of its own that can change: {sorted(kept)}"


def uncalled_mistakes():
    """Exports that none of these programs calls."""
    files = (f"{TESTS}/c/calls.c", f"{C}/tests/forgetting.c", f"{C}/tests/folders.c")
    files = (*files, f"{C}/tests/securing.c", f"{C}/tests/resuming.c")
    text = "".join(map(text_of, files))
    for name in in_header(0)[0]:
        if not re.search(rf"\b{name}\(", text):
            yield f"no test in C calls {name}"


# ---- MISRA C:2012, as far as cppcheck's addon looks

# The version that the list of exceptions was written with: another one finds others.
CPPCHECK = "Cppcheck 2.10"


def exceptions():
    """The rules that a file may break, of bindings/c/misra.txt: each with the file."""
    for line in text_of(f"{C}/misra.txt").splitlines():
        head, _, reason = line.partition(": ")
        if re.match(r"\d+\.\d+ ", line):
            rule, *files = head.split()
            yield from ((rule, it) for it in files if reason)


def named(path):
    """A file as bindings/c/misra.txt names it: an example from the top, others by their name."""
    return os.path.relpath(path, TOP if path.startswith(f"{EXAMPLES}/") else C)


def breaches(path):
    """The rules that a file breaks, and those that the headers break which it includes."""
    words = ["cppcheck", "--addon=misra", "--std=c99", "--language=c", "--quiet", f"-I{C}"]
    words += ["--template={file}:{line}: {id}", path]
    ran = subprocess.run(words, capture_output=True, text=True, timeout=SECONDS, check=False)
    told = ran.stdout + ran.stderr
    found = re.findall(r"^(\S+?):(\d+): misra-c2012-(\d+\.\d+)$", told, re.M)
    other = [it for it in told.splitlines() if not re.search(r": misra-c2012-[\d.]+$", it)]
    return {(rule, named(file)) for file, _, rule in found}, other


def misra_mistakes():
    """Rules that are broken without a reason, and reasons without a breach."""
    found, files = set(), [f"{C}/{it}" for it in ("heap.c", "errno.c", "pool.c")]
    files += [f"{EXAMPLES}/c/{it}" for it in sorted(os.listdir(f"{EXAMPLES}/c"))]
    for it in files:
        broken, other = breaches(it)
        found |= broken
        yield from other
    allowed = {*exceptions()}
    for rule, file in sorted(found - allowed):
        yield f"{file} breaks rule {rule} of MISRA C:2012"
    for rule, file in sorted(allowed - found):
        yield f"misra.txt: {file} doesn't break rule {rule}"


def misra_runs():
    """The headers and the examples, looked at."""
    words = ["cppcheck", "--version"]
    has = shutil.which("cppcheck") and subprocess.run(words, capture_output=True, text=True)
    if not has or has.stdout.strip() != CPPCHECK:
        print(f"no {CPPCHECK}: nothing is looked at by its MISRA addon")
        return
    yield "MISRA C:2012, by cppcheck", misra_mistakes()


# ---- compiling and running

def run_mistakes(*commands, **how):
    """What is wrong where one of these commands doesn't end with status 0."""
    for words in commands:
        try:
            ran = subprocess.run(words, capture_output=True, text=True, timeout=SECONDS, **how)
        except subprocess.TimeoutExpired:
            yield f"{' '.join(words)}: not done in {SECONDS} seconds"
            return
        if ran.returncode:
            yield f"{' '.join(words)}: status {ran.returncode}\n{(ran.stdout + ran.stderr)[-3000:]}"
            return


def has_sanitizer(room):
    """Whether cc can build and run a program with AddressSanitizer."""
    with open(f"{room}/empty.c", "w", encoding="utf-8") as it:
        it.write("int main(void) { return 0; }\n")
    words = ["cc", "-fsanitize=address,undefined", f"{room}/empty.c", "-o", f"{room}/empty"]
    return not [*run_mistakes(words, [f"{room}/empty"])]


def checkers(room):
    """How a program may be built and run to look at its memory: a name, flags, words in front."""
    yield "", [], []
    if has_sanitizer(room):
        yield ", AddressSanitizer", ["-g", "-fsanitize=address,undefined"], []
    else:
        print("no AddressSanitizer: programs aren't run under it")
    if shutil.which("valgrind"):
        words = ["valgrind", "-q", "--leak-check=full", "--error-exitcode=9"]
        yield ", valgrind", ["-g"], words
    else:
        print("no valgrind: programs aren't run under it")


class Bindings:
    """What is built, and the programs that run it."""

    def __init__(self, archive, program, room):
        self.archive, self.program, self.room = archive, program, room

    def c_mistakes(self, compiler, files, flags, front, words):
        """What is wrong where these files are compiled, linked to the archive, and run."""
        made, sources = f"{self.room}/made", []
        for it in [*files, f"{C}/errno.c"]:
            sources += ["-x", "c++" if compiler is CPP else "c", it]
        build = [*compiler, *flags, *sources, "-x", "none", self.archive, "-o", made]
        return run_mistakes(build, [*front, made, *words])

    def empty_folder(self):
        return tempfile.mkdtemp(dir=self.room)

    def folders_mistakes(self):
        """What is wrong where the example sends a file from a folder into another one."""
        outbox, inbox = self.empty_folder(), self.empty_folder()
        octets = chance_of(70).randbytes(700_001)
        with open(f"{outbox}/a.bin", "wb") as it:
            it.write(octets)
        example = [f"{EXAMPLES}/c/folders.c", f"{C}/heap.c"]
        yield from self.c_mistakes(C99, example, [], [], [outbox, inbox, "a.bin", "b.bin"])
        if os.listdir(inbox) != ["b.bin"]:
            yield f"the inbox has {os.listdir(inbox)}"
            return
        with open(f"{inbox}/b.bin", "rb") as it:
            if it.read() != octets:
                yield "the file differs"

    def pool_mistakes(self):
        """What is wrong where two stations with folders have an array by the sum of pool.h: a file
        of 30 MB, of which a first pass leaves some 6,000 gaps."""
        outbox, inbox = self.empty_folder(), self.empty_folder()
        with open(f"{outbox}/a.bin", "wb") as it:
            it.truncate(30_000_000)
        station = "CFDP_POOL_STATION(16384) + CFDP_POOL_RECORDS(1)"
        each = f"{station} + CFDP_POOL_IN_FOLDER + CFDP_POOL_GAPS(7500)"
        flags = [f"-DCFDP_POOL=CFDP_POOL_FOR(2 * ({each}))"]
        example = [f"{EXAMPLES}/c/folders.c", f"{C}/pool.c"]
        yield from self.c_mistakes(C99, example, flags, [], [outbox, inbox, "a.bin"])
        if not os.path.isfile(f"{inbox}/a.bin") or os.path.getsize(f"{inbox}/a.bin") != 30_000_000:
            yield f"the inbox has {os.listdir(inbox)}"

    def c_runs(self):
        """Each program in C, by each compiler and checker."""
        example = [f"{EXAMPLES}/c/transfer.c", f"{C}/heap.c"]
        forgetting = [f"{C}/tests/forgetting.c"]
        pool = [f"{C}/tests/in_a_pool.c", f"{C}/pool.c"]
        pools = [f"{C}/tests/pools.c", f"{C}/pool.c"]
        gaps = [f"{C}/tests/gaps.c", f"{C}/pool.c"]
        guide = [f"{C}/tests/guide.c", f"{C}/pool.c"]
        folders = [f"{C}/tests/folders.c", f"{C}/heap.c"]
        securing = [f"{C}/tests/securing.c", f"{C}/heap.c"]
        resuming = [f"{C}/tests/resuming.c", f"{C}/heap.c"]
        for name, flags, front in checkers(self.room):
            for octets in ("0", "1", "100000"):
                what = f"transfer.c, {octets} octets{name}"
                yield what, self.c_mistakes(C99, example, flags, front, [octets])
            yield f"calls.c{name}", self.c_mistakes(C99, [f"{TESTS}/c/calls.c"], flags, front, [])
            rounds = ["20"] if front else []
            yield f"forgetting.c{name}", self.c_mistakes(C99, forgetting, flags, front, rounds)
            puts = ["200"] if front else []
            yield f"in_a_pool.c{name}", self.c_mistakes(C99, pool, flags, front, puts)
            alone = ["-DCFDP_POOL=16", *flags]
            yield f"pools.c{name}", self.c_mistakes(C99, pools, alone, front, [])
            short = ["1000"] if front else []
            yield f"gaps.c{name}", self.c_mistakes(C99, gaps, alone, front, short)
            words = [self.empty_folder()]
            yield f"folders.c{name}", self.c_mistakes(C99, folders, flags, front, words)
            yield f"securing.c{name}", self.c_mistakes(C99, securing, flags, front, [])
            words = [self.empty_folder(), *(["60"] if front else [])]
            yield f"resuming.c{name}", self.c_mistakes(C99, resuming, flags, front, words)
            words = [self.empty_folder()]
            yield f"guide.c{name}", self.c_mistakes(C99, guide, flags, front, words)
        yield "the example folders.c", self.folders_mistakes()
        yield "folders.c in a pool", self.pool_mistakes()
        stack = [f"{C}/tests/stack.c", f"{C}/heap.c"]
        yield "stack.c", self.c_mistakes(C99, stack, [], [], [self.empty_folder()])
        yield "a file of 1 MiB", self.c_mistakes(C99, example, [], [], ["1048576"])
        if shutil.which("c++"):
            yield "transfer.c as C++", self.c_mistakes(CPP, example, [], [], [])
            words = [self.empty_folder()]
            yield "folders.c as C++", self.c_mistakes(CPP, folders, [], [], words)
            yield "securing.c as C++", self.c_mistakes(CPP, securing, [], [], [])
            words = [self.empty_folder(), "60"]
            yield "resuming.c as C++", self.c_mistakes(CPP, resuming, [], [], words)
            yield "forgetting.c as C++", self.c_mistakes(CPP, forgetting, [], [], [])
            yield "in_a_pool.c as C++", self.c_mistakes(CPP, pool, [], [], ["200"])
            yield "pools.c as C++", self.c_mistakes(CPP, pools, ["-DCFDP_POOL=16"], [], [])
            yield "gaps.c as C++", self.c_mistakes(CPP, gaps, ["-DCFDP_POOL=16"], [], [])
        else:
            print("no c++: nothing is compiled as C++")

    def header_runs(self):
        """The headers alone, by both languages, and the one without texts."""
        for what, words in (("C99", [*C99, "-x", "c"]), ("C++17", [*CPP, "-x", "c++"])):
            if shutil.which(words[0]):
                for name in ("cfdp.h", "cfdp_hooks.h", "pool.h"):
                    checks = [*words, "-fsyntax-only", f"{C}/{name}"]
                    yield f"{name} as {what}", run_mistakes(checks)
        if shutil.which("cc"):
            yield "cfdp.h without texts", self.textless_mistakes()

    def textless_mistakes(self):
        """What is wrong where the header's texts are left out: a program can't have them."""
        source, made = f"{self.room}/textless.c", f"{self.room}/textless.o"
        with open(source, "w", encoding="utf-8") as it:
            it.write('#include "cfdp.h"\n#ifdef ASKS\n#define ASK cfdp_answer_text(0) != NULL\n')
            it.write("#else\n#define ASK 1\n#endif\nint it(void)\n{\n    return ASK;\n}\n")
        words = [*C99, "-c", source, "-o", made]
        yield from run_mistakes(words, [*words, "-DCFDP_NO_TEXT"], [*words, "-DASKS"])
        if not [*run_mistakes([*words, "-DCFDP_NO_TEXT", "-DASKS"])]:
            yield "there are texts where CFDP_NO_TEXT is defined"

    def rust_program(self, source, made, *flags):
        """The commands that build a program in Rust, and where it then lies."""
        rustc = ["rustc", "--edition", EDITION, "-O", "-D", "warnings"]
        library, made = f"{self.room}/libcfdp.rlib", f"{self.room}/{made}"
        folder = os.path.dirname(self.archive)
        wrapper = ["--crate-type", "rlib", "--crate-name", "cfdp", f"{RUST}/src/lib.rs"]
        one = [*rustc, *wrapper, "-L", f"native={folder}", "-o", library]
        program = [*flags, "--extern", f"cfdp={library}", source]
        return [one, [*rustc, *program, "-L", f"native={folder}", "-o", made]], made

    def rust_example(self):
        """The same of the example."""
        return self.rust_program(f"{EXAMPLES}/rust/transfer.rs", "transfer_rs")

    def rust_runs(self):
        """The tests in Rust, and the example, as it is and under valgrind."""
        if not shutil.which("rustc"):
            print("no rustc: the wrapper, its tests and its example aren't compiled")
            return
        for name in ("fields", "folders", "forgetting", "lists", "resuming", "securing", "threads"):
            builds, made = self.rust_program(f"{RUST}/tests/{name}.rs", f"{name}_rs", "--test")
            yield f"{name}.rs", run_mistakes(*builds, [made])
            if name == "threads" and shutil.which("valgrind"):
                words = ["valgrind", "-q", "--error-exitcode=9"]
                yield "threads.rs, valgrind", run_mistakes([*words, made])
        yield "a station isn't shared", self.sharing_mistakes()
        builds, made = self.rust_example()
        yield "transfer.rs", run_mistakes(*builds, [made], [made, "0"])
        if shutil.which("valgrind"):
            words = ["valgrind", "-q", "--leak-check=full", "--error-exitcode=9"]
            yield "transfer.rs, valgrind", run_mistakes([*words, made, "20000"])

    def sharing_mistakes(self):
        """What is wrong where a program compiles that lends a station to two threads at once."""
        source = f"{self.room}/shared.rs"
        with open(source, "w", encoding="utf-8") as it:
            it.write("fn shared<T: Sync>() {}\nfn main() { shared::<cfdp::Station>() }\n")
        library, _ = self.rust_example()[0]
        yield from run_mistakes(library)
        words = ["rustc", "--edition", EDITION, "--emit", "metadata", "--out-dir", self.room]
        words += ["--extern", f"cfdp={self.room}/libcfdp.rlib", source]
        said = [*run_mistakes(words)]
        if not said or "cannot be shared between threads" not in said[0]:
            yield f"a station is shared between threads, or isn't for something else: {said}"

    def cargo_mistakes(self, words, **how):
        """What is wrong where cargo does this in a copy of the crate, which has its example."""
        folder = f"{self.room}/bindings/rust"
        if not os.path.isdir(folder):
            shutil.copytree(RUST, folder, ignore=shutil.ignore_patterns("target", "Cargo.lock"))
            shutil.copytree(f"{EXAMPLES}/rust", f"{self.room}/examples/rust")
        how = {**os.environ, **how}
        words = ["cargo", words[0], "--offline", *words[1:]]
        yield from run_mistakes(words, cwd=folder, env=how)

    def cargo_runs(self):
        """The pages of the crate, their examples, what clippy says, and what its build says where
        the archive lacks."""
        if not shutil.which("cargo"):
            print("no cargo: the pages of the crate aren't made")
            return
        where = {"CFDP_LIB": os.path.dirname(self.archive)}
        pages = self.cargo_mistakes(["doc", "--no-deps"], RUSTDOCFLAGS="-D warnings", **where)
        yield "cargo doc", pages
        yield "the examples of the pages", self.cargo_mistakes(["test", "--doc"], **where)
        words = ["cargo", "clippy", "--version"]
        has = subprocess.run(words, capture_output=True, text=True, check=False)
        if has.stdout.startswith(CLIPPY):
            lints = ["--", "-W", "clippy::pedantic", "-D", "warnings"]
            words = ["clippy", "--all-targets", *lints]
            yield "clippy::pedantic", self.cargo_mistakes(words, **where)
        else:
            print(f"no {CLIPPY}: clippy doesn't look at the wrapper")
        said = [*self.cargo_mistakes(["check"], CFDP_LIB=f"{self.room}/nowhere")]
        told = ["make it by `.ci/archive`" in it for it in said]
        yield "a build without the archive", [] if told == [True] else [f"cargo says {said}"]

    def udp_mistakes(self, made):
        """What is wrong where a program's station sends a file to one of cfdp_node."""
        ports, octets = free_ports(2), 300_000
        with tempfile.TemporaryDirectory(dir=self.room) as folder:
            words = ["--listen", f"127.0.0.1:{ports[1]}", "--to", f"127.0.0.1:{ports[0]}"]
            ids = ["--id", "2", "--peer", "1", "--inbox", folder, "--idle", "20"]
            settings = PATIENT.items()
            sets = [it for key, value in settings for it in ("--set", key, str(value))]
            node = [self.program, "station", "--no-time", *ids, *words, *sets]
            with subprocess.Popen(node, stdout=subprocess.PIPE, stderr=subprocess.STDOUT) as peer:
                waits_for(lambda: is_bound(ports[1]) or peer.poll() is not None)
                yield from run_mistakes([made, "udp", str(ports[0]), str(ports[1]), str(octets)])
                told = peer.communicate(timeout=SECONDS)[0].decode()
            size = os.path.getsize(f"{folder}/received.raw") if os.listdir(folder) else None
            if peer.returncode or size != octets:
                yield f"cfdp_node: status {peer.returncode}, {size} octets came, {told[-2000:]!r}"

    def udp_runs(self):
        """One station of each example over UDP, with cfdp_node as the other."""
        if not os.access(self.program, os.X_OK):
            print(f"no {self.program}: no transfer over UDP")
            return
        made = f"{self.room}/made"
        example = [f"{EXAMPLES}/c/transfer.c", f"{C}/heap.c", f"{C}/errno.c", self.archive]
        if not [*run_mistakes([*C99, *example, "-o", made])]:
            yield "transfer.c over UDP", self.udp_mistakes(made)
        if shutil.which("rustc"):
            builds, made = self.rust_example()
            if not [*run_mistakes(*builds)]:
                yield "transfer.rs over UDP", self.udp_mistakes(made)

    def runs(self):
        yield "the header, ffi.rs and the crate", declaration_mistakes()
        yield "const in the header", constancy_mistakes()
        yield "the numbers of the answers", number_mistakes()
        yield "the standard's codes", code_mistakes()
        yield "one release", release_mistakes()
        yield "the guide's code", guide_mistakes()
        yield from misra_runs()
        yield "the archive's names", name_mistakes(self.archive)
        yield "every export is called in C", uncalled_mistakes()
        yield from self.header_runs()
        if shutil.which("cc"):
            yield from self.c_runs()
        else:
            print("no cc: nothing is compiled as C")
        yield from self.rust_runs()
        yield from self.cargo_runs()
        if shutil.which("cc"):
            yield from self.udp_runs()


def tell_figures(archive, room):
    """Prints the sizes of the archive and of a stripped program, and what the programs measure."""
    made = f"{room}/figures"
    files = [f"{EXAMPLES}/c/transfer.c", f"{C}/heap.c", f"{C}/errno.c", archive]
    subprocess.run([*C99, *files, "-s", "-Wl,--gc-sections", "-o", made], check=True)
    print(f"archive {os.path.getsize(archive)} octets, stripped transfer {os.path.getsize(made)}")
    stack, pool = [f"{C}/tests/stack.c", f"{C}/heap.c"], [f"{C}/tests/in_a_pool.c", f"{C}/pool.c"]
    figures = [f"{TESTS}/c/figures.c", f"{C}/heap.c"]
    for sources, words in ((figures, []), (stack, [tempfile.mkdtemp(dir=room)]), (pool, [])):
        subprocess.run([*C99, *sources, f"{C}/errno.c", archive, "-o", made], check=True)
        subprocess.run([made, *words], check=True)


def main(words):
    count = Count("tests/bindings.py", taken(words, "--after"))
    archive = os.path.abspath(taken(words, "--archive") or ARCHIVE)
    program = os.path.abspath(taken(words, "--program") or PROGRAM)
    if not os.path.isfile(archive):
        count.add("the archive", [f"there is no {archive}: `.ci/archive` makes it"])
        return count.end()
    with tempfile.TemporaryDirectory() as room:
        if "--figures" in words:
            tell_figures(archive, room)
            return 0
        count.add_all(Bindings(archive, program, room).runs())
    return count.end()


if __name__ == "__main__":
    sys.exit(main(sys.argv[1:]))
