"""The settings file that `station --print-config` prints, and the man pages, beside the help."""
import os
import re
import shutil
import subprocess
import sys
import tempfile
import tomllib

from lib.paths import TOP
from lib.ports import free_ports

SECONDS = 600

# Options that name a settings file, and those of every command.
NO_KEYS = {"config", "print-config", "help"}

# What a station has in place of a script's default; and what it says by an option of its own.
OTHERS = {"number_width": 8, "pdu_crc": 1, "most_gaps": 65_536}
NO_SETTINGS = {"first_number"}


def told(program, *words):
    """What the program prints."""
    how = {"capture_output": True, "text": True, "timeout": SECONDS, "check": True}
    return subprocess.run([program.path, *words], **how).stdout


def options_of(text):
    """The options of a help with their defaults, None where they have none."""
    found = {}
    for line in text.split("\n"):
        option = re.match(r"  (?:-h, |    )--([a-z-]+)", line)
        if option:
            default = re.search(r"\[default: (.*)\]$", line)
            found[option[1]] = default[1] if default else None
    return found


def settings_of(text):
    """The settings that the help of scripts lists, with their defaults."""
    part = text.partition("Settings, with their defaults:\n")[2].partition("\n\n")[0]
    found = re.findall(r"(?:^|, )\s*([a-z_]+) (\d+)\b(?!\^)", part, re.M)
    return {key: int(value) for key, value in found}


def printed_mistakes(program):
    """What is wrong with the settings file that is printed."""
    text, help_text = told(program, "station", "--print-config"), told(program, "station", "--help")
    values = tomllib.loads(text)
    commented = set(re.findall(r"^# ([a-z_-]+) = ", text, re.M))
    for name, default in options_of(help_text).items():
        if name in NO_KEYS or name == "set":
            continue
        if default is None and not (name in commented or values.get(name) in (False, [])):
            yield f"of --{name} it says {values.get(name)}, and the help nothing"
        if default is not None and str(values.get(name)) != default:
            yield f"of --{name} it says {values.get(name)}, and the help {default}"
    wanted = {**settings_of(told(program, "sim", "--help")), **OTHERS}
    if len(wanted) < 16:
        yield f"the help of scripts has only {wanted}"
    for key, value in wanted.items():
        if key not in NO_SETTINGS and values["set"].get(key) != value:
            yield f"of the key {key} it says {values['set'].get(key)}, and the help {value}"
    for line in text.split("\n"):
        if len(line) > 100:
            yield f"it has a long line: {line}"


def read_again_mistakes(program):
    """What is wrong where a station reads the printed file: it does what one does without. What
    stands there in comments is read too."""
    text = told(program, "station", "--print-config")
    whole = re.sub(r"^# ([a-z_-]+ = )", r"\1", text, flags=re.M)
    # A station sends from one folder.
    whole = re.sub(r"(?m)^spool = .*$", "", whole)
    ran = []
    for settings in (None, text, whole):
        with tempfile.TemporaryDirectory(dir=program.room) as folder:
            own, peer = free_ports(2)
            words = ["--id", "1", "--peer", "2", "--listen", f"127.0.0.1:{own}", "--idle", "1"]
            words += ["--to", f"127.0.0.1:{peer}", "--outbox", "FILES", "--inbox", "RECEIVED"]
            words += ["--put", "a", "b", "--trace", "--drop", "0", "--no-time", "--rate", "0"]
            for name in ("FILES", "RECEIVED"):
                os.mkdir(f"{folder}/{name}")
            if settings is not None:
                with open(f"{folder}/a.toml", "w", encoding="utf-8") as it:
                    it.write(settings.replace('"127.0.0.1:5101"', '"127.0.0.1:0"'))
                os.mkdir(f"{folder}/SEND")
                words += ["--config", "a.toml"]
            how = {"cwd": folder, "capture_output": True, "text": True, "timeout": SECONDS}
            it = subprocess.run([program.path, "station", *words], **how)
            ran.append((it.returncode, it.stdout, it.stderr))
    if ran[0] != ran[1]:
        yield f"with the printed file it ended so: {ran[1]}, and without it so: {ran[0]}"
    if ran[2][0] == 2:
        yield f"what stands in comments is refused: {ran[2][2][:500]}"


# What stands in a page for signs that roff would read otherwise.
ESCAPES = {"\\-": "-", "\\(aq": "'", "\\(ha": "^", "\\(ti": "~", "\\(ga": "`", "\\e": "\\"}

# Sections of each man page, and of those with files.
SECTIONS = ["NAME", "SYNOPSIS", "DESCRIPTION", "EXIT STATUS", "EXAMPLES", "SEE ALSO"]
WITH_FILES = ("cfdp_node.1", "cfdp_node-station.1")


def words_of(text):
    """The words of a help or of a page, without what lays it out."""
    text = re.sub(r"(?m)^\.[A-Z]+ ?|^\.(nf|fi)$|\\f.|\\&|^\.\\\".*", "", text)
    for escape, sign in ESCAPES.items():
        text = text.replace(escape, sign)
    return text.split()


def made_mistakes(name, text, help_text):
    """What is wrong with a page of the program, beside the help that it is made from."""
    sections = re.findall(r"(?m)^\.SH (.*)$", text)
    for it in SECTIONS + ["FILES"] * (name in WITH_FILES):
        if it not in sections:
            yield f"{name} has no section {it}"
    titles = r"(?m)^(?:(?:Usage|Options|Arguments|Commands|Exit status):|Examples?)"
    lines = re.sub(titles, "", help_text)
    lacks = set(re.findall(r"[\w-]{2,}", lines.lower()))
    lacks -= set(re.findall(r"[\w-]{2,}", " ".join(words_of(text)).lower()))
    if name != "cfdp_node.1" and lacks:
        yield f"{name} lacks of the help {sorted(lacks)}"


def page_mistakes(program):
    """What is wrong with the man pages that are made: each command has one, which says what its
    help says; and mandoc and man, if the machine has them, find nothing wrong with any."""
    commands = re.findall(r"(?m)^  ([a-z]+)  ", told(program, "--help").partition("Commands:")[2])
    commands = {f"cfdp_node-{it}.1": [it] for it in commands if it != "help"}
    with tempfile.TemporaryDirectory(dir=program.room) as folder:
        words = [sys.executable, f"{TOP}/packaging/make-man", folder, "--program", program.path]
        subprocess.run(words, check=True, timeout=SECONDS)
        wanted = {"cfdp.3", "cfdp_node.1", *commands}
        if {*os.listdir(folder)} != wanted or len(commands) < 6:
            yield f"pages are made {sorted(os.listdir(folder))}, and not {sorted(wanted)}"
        for name in sorted(os.listdir(folder)):
            with open(f"{folder}/{name}", encoding="utf-8") as it:
                text = it.read()
            if name != "cfdp.3":
                help_text = told(program, *commands.get(name, []), "--help")
                yield from made_mistakes(name, text, help_text)
            elif not re.search(r"(?m)^\.SH EXAMPLES\n(.*\n)*    cfdp_put\(", text):
                yield "cfdp.3 has no example of a put"
            for words in (["mandoc", "-T", "lint"], ["man", "--warnings", "-l"]):
                if shutil.which(words[0]):
                    how = {"capture_output": True, "text": True, "timeout": SECONDS}
                    how["env"] = {**os.environ, "LC_ALL": "C.UTF-8", "MANWIDTH": "100"}
                    ran = subprocess.run([*words, f"{folder}/{name}"], **how)
                    said = ran.stderr + (ran.stdout if words[0] == "mandoc" else "")
                    if ran.returncode or said:
                        yield f"{words[0]} of {name}: {said[-500:]}"


def example_mistakes(program):
    """What is wrong with the settings of the example unit: all are known and in their ranges."""
    with tempfile.TemporaryDirectory(dir=program.room) as folder:
        for name in ("inbox", "spool"):
            os.mkdir(f"{folder}/{name}")
        words = ["--config", f"{TOP}/packaging/station.toml", "--listen", "127.0.0.1:0"]
        words += ["--idle", "1"]
        how = {"cwd": folder, "capture_output": True, "text": True, "timeout": SECONDS}
        it = subprocess.run([program.path, "station", *words, "--to", "127.0.0.1:9"], **how)
        if it.returncode:
            yield f"with status {it.returncode} it wrote {it.stderr[-500:]}"


def all_mistakes(program):
    """Titles with what is wrong."""
    yield "the printed settings file", printed_mistakes(program)
    yield "the printed settings file, read again", read_again_mistakes(program)
    yield "the settings of packaging/", example_mistakes(program)
    yield "the man pages", page_mistakes(program)
