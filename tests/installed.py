#!/usr/bin/env python3
"""Installs what was built into an empty folder, by packaging/install and packaging/deb; uses it.

    tests/installed.py                          the built program and library
    tests/installed.py --program PATH --archive PATH ..    others
    tests/installed.py --after 'A passed, B failed'        counts these in the last line

In each case all files lie where they belong, the program runs, and `cc $(pkg-config --cflags --libs
cfdp) YOURS.c` builds a program that transfers a file, with memory from malloc, and with memory of
its own. THIRD-PARTY names all crates of the toolchain that program and library stand on. Where a
machine hasn't cc, pkg-config, dpkg-deb or man, a line says so. The last line is 'N passed, M
failed'.
"""
import os
import re
import shutil
import subprocess
import sys
import tempfile

from lib.counting import Count, taken
from lib.paths import TOP

SECONDS = 1200

WANTED = """
bin/cfdp_node include/cfdp.h include/cfdp_hooks.h lib/libcfdp_c.a lib/libcfdp_heap.a
lib/pkgconfig/cfdp.pc
lib/systemd/system/cfdp-station-watch@.service lib/systemd/system/cfdp-station-watch@.timer
lib/systemd/system/cfdp-station@.service lib/tmpfiles.d/cfdp-sent.conf
share/cfdp/errno.c share/cfdp/folders.c
share/cfdp/cfdp-alerts.yml share/cfdp/cfdp-dashboard.json share/cfdp/cfdp-run
share/cfdp/heap.c share/cfdp/pool.c share/cfdp/pool.h share/cfdp/transfer.c
share/doc/cfdp/CHANGELOG.md share/doc/cfdp/CONSOLE.md
share/doc/cfdp/EMBEDDING.md share/doc/cfdp/FORMATS.md
share/doc/cfdp/LICENSE share/doc/cfdp/OPERATING.md share/doc/cfdp/README.md
share/doc/cfdp/SECURITY.md share/doc/cfdp/THIRD-PARTY share/doc/cfdp/TRY.md
share/doc/cfdp/station.toml
share/man/man1/cfdp_node.1.gz share/man/man1/cfdp_node-ask.1.gz share/man/man1/cfdp_node-dump.1.gz
share/man/man1/cfdp_node-loop.1.gz share/man/man1/cfdp_node-play.1.gz
share/man/man1/cfdp_node-sim.1.gz share/man/man1/cfdp_node-station.1.gz share/man/man3/cfdp.3.gz
""".split()
OF_DEB = ["lib/sysusers.d/cfdp.conf", "share/doc/cfdp/changelog.gz", "share/doc/cfdp/copyright"]


def run(words, **how):
    """What a command printed; an exception where it fails."""
    ran = subprocess.run(words, capture_output=True, text=True, timeout=SECONDS, **how)
    if ran.returncode:
        said = (ran.stdout + ran.stderr)[-2000:]
        raise RuntimeError(f"{' '.join(words)}: status {ran.returncode}\n{said}")
    return ran.stdout


def has(*programs):
    """Whether the machine has them all; a line says where it hasn't."""
    lacks = [it for it in programs if not shutil.which(it)]
    for it in lacks:
        print(f"no {it}: what is installed isn't tried by it")
    return not lacks


class Tree:
    """What was installed: the folder that a prefix lies in, and the prefix."""

    def __init__(self, root, prefix, wanted):
        self.root, self.prefix, self.wanted = root, prefix, wanted

    def path(self, name):
        return f"{self.root}{self.prefix}/{name}"

    def file_mistakes(self):
        """Where other files lie there, or a file can't be read by all."""
        found = []
        for top, _, files in os.walk(self.path("")):
            for it in files:
                path = os.path.join(top, it)
                found.append(os.path.relpath(path, self.path("")))
                if os.stat(path).st_mode & 0o444 != 0o444:
                    yield f"{path} isn't for all to read"
        if sorted(found) != sorted(self.wanted):
            yield f"there lie {sorted({*found} ^ {*self.wanted})}, which shouldn't, or don't"

    def program_mistakes(self):
        """Where the program doesn't run, or isn't that of the units."""
        told = run([self.path("bin/cfdp_node"), "--version"])
        if not re.match(r"cfdp_node \d", told):
            yield f"cfdp_node --version prints {told!r}"
        with open(self.path("lib/systemd/system/cfdp-station@.service"), encoding="utf-8") as it:
            if f"ExecStart={self.prefix}/bin/cfdp_node station" not in it.read():
                yield "the unit starts another program"

    def build(self, made, *sources):
        """Compiles these by the words that pkg-config gives."""
        how = {**os.environ, "PKG_CONFIG_PATH": self.path("lib/pkgconfig")}
        how |= {"PKG_CONFIG_SYSROOT_DIR": self.root, "PKG_CONFIG_ALLOW_SYSTEM_CFLAGS": "1"}
        how |= {"PKG_CONFIG_ALLOW_SYSTEM_LIBS": "1"}
        given = run(["pkg-config", "--cflags", "--libs", "cfdp"], env=how).split()
        strict = ["-std=c99", "-Wall", "-Wextra", "-Werror"]
        run(["cc", *given, *strict, *[self.path(f"share/cfdp/{it}") for it in sources], "-o", made])
        return made

    def use_mistakes(self, room):
        """What is wrong where a program is built with it, and transfers a file."""
        for sources in (["transfer.c"], ["transfer.c", "heap.c"], ["transfer.c", "pool.c"]):
            run([self.build(f"{room}/made", *sources), "20000"])
        yield from []

    def page_mistakes(self):
        """What man says of the pages."""
        for it in (it for it in self.wanted if it.startswith("share/man/")):
            words = ["man", "--warnings", "-l", self.path(it)]
            how = {**os.environ, "LC_ALL": "C.UTF-8", "MANROFFSEQ": "", "MANWIDTH": "100"}
            ran = subprocess.run(words, capture_output=True, text=True, env=how, timeout=SECONDS)
            if ran.returncode or ran.stderr or "CFDP" not in ran.stdout.upper():
                yield f"{it}: {ran.stderr[-1000:]}"

    def runs(self, what, room):
        yield f"{what}: the files", self.file_mistakes()
        yield f"{what}: the program", self.program_mistakes()
        if has("cc", "pkg-config"):
            yield f"{what}: a program with the library", self.use_mistakes(room)
        if has("man"):
            yield f"{what}: the man pages", self.page_mistakes()


def installed(room, others):
    root = f"{room}/installed"
    run([f"{TOP}/packaging/install", f"{root}/opt/cfdp", *others])
    return Tree("", f"{root}/opt/cfdp", WANTED)


def packed(room, others):
    """What a package has, unpacked."""
    path = run([f"{TOP}/packaging/deb", room, *others]).strip()
    told = run(["dpkg-deb", "--field", path, "Package", "Architecture", "Depends"])
    if "Package: cfdp" not in told or "libc6" not in told:
        raise RuntimeError(f"{path}: {told}")
    run(["dpkg-deb", "-x", path, f"{room}/unpacked"])
    return Tree(f"{room}/unpacked", "/usr", [*WANTED, *OF_DEB])


# ---- licences

def used_by(name):
    """The crates of a line of crates.txt."""
    with open(f"{TOP}/crates.txt", encoding="utf-8") as it:
        lines = [line.split("#")[0].partition(":") for line in it]
    return {head.split()[0]: deps.split() for head, _, deps in lines if head.strip()}.get(name)


def of_toolchain(name, libraries, found):
    """The crates of the toolchain that a crate stands on."""
    deps = used_by(name)
    if deps is None and name not in found:
        found.add(name)
        with open(f"{libraries}/{name}.rlib/format", encoding="utf-8") as it:
            deps = re.findall(r"^dep (\w+)$", it.read(), re.M)
    for it in deps or []:
        of_toolchain(it, libraries, found)
    return found


def licence_mistakes():
    """The crates of the toolchain that THIRD-PARTY doesn't name."""
    folder = os.path.dirname(os.path.dirname(os.path.realpath(shutil.which("rt"))))
    found = of_toolchain("cfdp_node", f"{folder}/rlibs", set())
    found |= of_toolchain("cfdp_c", f"{folder}/rlibs", set())
    with open(f"{TOP}/THIRD-PARTY", encoding="utf-8") as it:
        named = set(re.findall(r"\w+", it.read().split("\n----")[0]))
    # parts of `std` and of `jiff`
    lacks = [it for it in sorted(found - named) if not it.startswith(("std_", "jiff_"))]
    if lacks:
        yield f"THIRD-PARTY doesn't name {', '.join(lacks)}"


def all_runs(room, others):
    if has("rt"):
        yield "the licences", licence_mistakes()
    yield from installed(room, others).runs("packaging/install", room)
    if has("dpkg-deb"):
        yield from packed(room, others).runs("packaging/deb", room)


def main(words):
    count = Count("tests/installed.py", taken(words, "--after"))
    given = {it: taken(words, it) for it in ("--program", "--archive")}
    others = [word for it, path in given.items() if path for word in (it, os.path.abspath(path))]
    with tempfile.TemporaryDirectory() as room:
        try:
            count.add_all(all_runs(room, others))
        except RuntimeError as error:
            count.add("what is installed", [f"{error}"])
    return count.end()


if __name__ == "__main__":
    sys.exit(main(sys.argv[1:]))
