"""The spool of a station and the inbox of its peer."""
import contextlib
import os

from lib.links import Link
from lib.waiting import waits_for

# What both ends of a link of a relay are set to: who was killed has forgotten its transactions, and
# its peer gives them up within some seconds. Then the spool gives the file again.
HASTY = {"eof_time": 1, "nak_time": 1, "finished_time": 1, "inactivity_time": 4, "zone": 1024}
HASTY |= {"eof_limit": 4, "nak_limit": 4, "finished_limit": 4}


def names_in(folder):
    """The names in a folder that begin with no point; none where there is no folder."""
    with contextlib.suppress(FileNotFoundError):
        return {it for it in os.listdir(folder) if not it.startswith(".")}
    return set()


def octets_of(path):
    """What a file has, or None where it isn't there any more."""
    with contextlib.suppress(FileNotFoundError), open(path, "rb") as it:
        return it.read()
    return None


def drop(folder, name, octets):
    """Drops a file into a spool, as is to be done: whole, by a rename."""
    with open(f"{folder}/.{name}", "wb") as it:
        it.write(octets)
    os.rename(f"{folder}/.{name}", f"{folder}/{name}")


# Words of a station that sends what lies in its folder `from`, and of one that takes files.
SPOOL = ["--spool", "from", "--no-time", "--rate", "4000"]
INBOX = ["--inbox", "to", "--no-time", "--rate", "4000"]


class Spool:
    """The spool of station 1 of a link, and the inbox of station 2."""

    def __init__(self, link):
        self.link = link
        self.folder, self.inbox = f"{link.folder}/1/from", f"{link.folder}/2/to"
        for it in (self.folder, self.inbox):
            os.makedirs(it, exist_ok=True)

    def drops(self, files):
        for name, octets in files.items():
            drop(self.folder, name, octets)

    def came(self):
        """What lies in the inbox."""
        return {name: octets_of(f"{self.inbox}/{name}") for name in names_in(self.inbox)}

    def in_folder(self, folder):
        """What lies in a folder of the spool, such as `.sent`."""
        path = f"{self.folder}/{folder}"
        return {name: octets_of(f"{path}/{name}") for name in names_in(path)}

    def mistakes(self, files, removes=False):
        """What is wrong where these files are to come, and to leave the spool."""
        sent = {} if removes else files
        left = lambda: names_in(self.folder) & files.keys()
        if not waits_for(lambda: not left() and self.in_folder(".sent") == sent):
            there = sorted(self.in_folder(".sent"))
            yield f"{sorted(left())[:9]} stay, and {there[:9]} lie in .sent"
        if self.came() != files:
            came = {name: len(octets or b"") for name, octets in self.came().items()}
            yield f"of {len(files)} files {len(came)} came, as {sorted(came.items())[:9]}"


@contextlib.contextmanager
def spool_of(program):
    """A link with a spool, in a block."""
    with Link(program) as link:
        yield link, Spool(link)
