"""Transcripts: questions and answers as text, how they are read and played."""
import itertools
import os
import re
import sys

from lib.rows import text_of


class Transcript:
    """Questions and answers, which `test_bench` plays."""

    def __init__(self, file, number, title, words):
        self.place, self.title, self.words, self.lines = f"{file}:{number}", title, words, []

    @property
    def questions(self):
        return text_of(it for it in self.lines if not it.startswith(" "))

    @property
    def whole(self):
        return text_of(self.lines)


def joined_lines(path):
    """The lines of a file, by number. One that ends with a backslash goes on in the next."""
    begun = ""
    with open(path, encoding="utf-8", newline="\n") as it:
        for number, line in enumerate(it.read().split("\n"), 1):
            whole = begun + (line.lstrip(" ") if begun else line)
            begun = whole[:-1] if whole.endswith("\\") else ""
            if not begun:
                yield number, whole


def transcripts_of(path):
    """The transcripts of a file."""
    name = os.path.basename(path)
    words, title, transcript = None, "", None
    for number, line in joined_lines(path):
        if line.startswith("$"):
            words = line[2:].split()
        elif line.startswith("#"):
            title = title or line[2:]
        elif line:
            if words is None:
                sys.exit(f"tests/run: {name}:{number}: no arguments before the first transcript")
            transcript = transcript or Transcript(name, number, title, words)
            transcript.lines.append(line)
        else:
            if transcript:
                yield transcript
            title, transcript = "", None
    if transcript:
        yield transcript


def choices(words):
    """The arguments of a transcript, once for each number of a range A..B among them."""
    for at, word in enumerate(words):
        ends = re.fullmatch(r"(\d+)[.][.](\d+)", word)
        if ends:
            numbers = range(int(ends[1]), int(ends[2]) + 1)
            return [[*words[:at], str(it), *words[at + 1 :]] for it in numbers]
    return [words]


def transcript_mistakes(player, transcript, words):
    """What is wrong with a transcript that is played with these arguments."""
    status, out, err, _ = player.run(words, transcript.questions)
    if status or err:
        yield f"it ended with status {status}: {err[-300:]}"
    told, wanted = out.split("\n"), transcript.whole.split("\n")
    if told != wanted:
        alike = itertools.takewhile(lambda it: it[0] == it[1], zip(told, wanted))
        at = sum(1 for _ in alike)
        shown = [text_of(it[at:])[:1000] for it in (told, wanted)]
        yield f"behind {at} lines it wrote\n{shown[0]}and not\n{shown[1]}"
