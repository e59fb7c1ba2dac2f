#!/usr/bin/env python3
"""Draws the pages of the console and of `play` at work, as the documents show them.

    tests/by_hand/pictures.py console FILE [PROGRAM]    docs/console.png, in two minutes
    tests/by_hand/pictures.py play FILE [PROGRAM]       docs/play.png

By this program or by that which `rt ci` leaves. It needs Debian's chromium.
"""
import os
import sys
import time

sys.path.insert(0, os.path.dirname(os.path.dirname(os.path.abspath(__file__))))
import play
from lib.browser import Browser
from lib.console import Console
from lib.links import Link, Relay
from lib.processes import PATIENT
from lib.program import program_of


def console_picture(program, path):
    """Draws the page of a station that is at work for two minutes, as the documents show it."""
    names = {"schedule.csv": 400_000, "telemetry-0041.bin": 2_400_000, "image-0107.fits": 1_200_000}
    lost = iter(range(10**9))
    with Link(program, Relay(lambda own, frame: next(lost) % 37 != 0)) as link, \
            Browser() as page:
        link.puts(1, {name: bytes(size) for name, size in names.items()})
        link.puts(2, {"commands.txt": bytes(1_000_000)})
        it = Console(link, 1, ["--outbox", "from", "--inbox", "to", "--rate", "120"], PATIENT)
        page.has_size(1080, 980)
        page.shows(f"http://127.0.0.1:{it.port}/")
        for name in names:
            it.does("/puts", {"source": name})
            if name == "schedule.csv":
                words = ["--put", "commands.txt", "commands.txt", "--rate", "30"]
                link.starts(2, ["--inbox", "to", "--outbox", "from", *words], PATIENT)
            time.sleep(40)
        page.draws(path)


def play_picture(program, path):
    """Draws the page at work, as the documents show it."""
    script = ("set segment 200\nfill 1 image.fits 1000 41\nput 1 image.fits image.fits\nspread 1\n"
              "deliver 1 dir\ndeliver 1 data 2\nstrike 1 data\ndeliver 1 data\ndeliver 1 dir\n"
              "spread 2\n")
    with play.opened(program, script) as (_, page):
        page.has_size(1180, 860)
        has_come = f"{play.TEXT_OF.format('chart')}.includes('eof-recv')"
        page.awaits(f"{has_come} && {play.FRAMES} === 3", play.SOON)
        time.sleep(2)
        page.clicks("document.querySelectorAll('.frame.dir')[1]")
        page.awaits(f"{play.TEXT_OF.format('opened-body')}.includes('AOS')", play.SOON)
        page.finds("document.activeElement.blur()")
        page.finds("scrollTo(0, 0)")
        time.sleep(0.5)
        page.draws(path)


def main(words):
    draws = {"console": console_picture, "play": play_picture}.get(words[0] if words else "")
    if not draws or not words[1:]:
        sys.exit(__doc__)
    with program_of(words[2:]) as program:
        draws(program, words[1])


if __name__ == "__main__":
    main(sys.argv[1:])
