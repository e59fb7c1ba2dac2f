"""Disks that are small or full."""
import contextlib
import os
import resource
import signal
import subprocess


def limited():
    """No file of this process may have more than 4,096 octets: as if its disk were full."""
    signal.signal(signal.SIGXFSZ, signal.SIG_IGN)
    resource.setrlimit(resource.RLIMIT_FSIZE, (4096, 4096))


@contextlib.contextmanager
def small_disk(folder):
    """A disk of 32 MB at this folder, where the system lets one be mounted; gives whether."""
    words = ["mount", "-t", "tmpfs", "-o", "size=32m", "tmpfs", folder]
    is_there = os.geteuid() == 0 and subprocess.run(words, capture_output=True).returncode == 0
    try:
        yield is_there
    finally:
        if is_there:
            subprocess.run(["umount", "-l", folder], capture_output=True, check=False)


def fill(path):
    """Fills the disk of this path up."""
    with contextlib.suppress(OSError), open(path, "wb", buffering=0) as it:
        while it.write(bytes(4096)):
            pass
