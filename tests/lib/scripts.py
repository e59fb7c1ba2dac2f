"""Scripts of `sim`, as far as tests read them."""


def files_of(script):
    """The files of both outboxes, by station and name, as a script says them."""
    files = {}
    for line in script.split("\n"):
        it = line.split(" ")
        if it[0] == "file":
            files[it[1], it[2]] = " ".join(it[3:]).encode()
        elif it[0] == "fill":
            files[it[1], it[2]] = bytes([int(it[4], 16)]) * int(it[3])
    return files


def is_of_any_order(script):
    """Whether a script runs over such a link, so that nothing can be shown of it."""
    verbs = ("overtake ", "repeat ", "restart ")
    return any(it.startswith(verbs) for it in script.split("\n"))
