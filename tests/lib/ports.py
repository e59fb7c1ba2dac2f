"""Ports of 127.0.0.1 that nobody has and that no other test was given."""
import itertools
import socket
import threading

# Processes begin, and ports are given out, one at a time.
ALONE = threading.Lock()

# Sockets that keep the ports that were given out. They don't listen, and a station may listen at
# such a port beside them; but the system gives it to no connection that begins meanwhile.
KEPT = []

# Ports for datagrams are taken in blocks of so many, from this one on.
BLOCK, FIRST = 200, 10_000


def first_of_system():
    """The first of the ports that the system gives to sockets that name none."""
    with open("/proc/sys/net/ipv4/ip_local_port_range", encoding="ascii") as it:
        first = int(it.read().split()[0])
    return first if first >= FIRST + 20 * BLOCK else 32_768


def ports_of_blocks():
    """Ports for datagrams that the system gives to nobody, each once, in blocks that this process
    keeps from others that test here too: it has a socket for connections at the first port of each,
    which can have no other one beside it."""
    for start in range(FIRST, first_of_system() - BLOCK, BLOCK):
        it = socket.socket()
        try:
            it.bind(("127.0.0.1", start))
        except OSError:
            it.close()
            continue
        KEPT.append(it)
        yield from range(start, start + BLOCK)


PORTS = ports_of_blocks()


def free_ports(count):
    """So many ports of 127.0.0.1 that nobody has, and that were given to nobody before."""
    with ALONE:
        free = (port for port in PORTS if not is_bound(port))
        ports = list(itertools.islice(free, count))
    if len(ports) < count:
        raise OSError("no port for datagrams is left")
    return ports


def free_port():
    """A port of 127.0.0.1 for connections that nobody has, and that nobody else is given."""
    with ALONE:
        it = socket.socket()
        it.setsockopt(socket.SOL_SOCKET, socket.SO_REUSEADDR, 1)
        it.bind(("127.0.0.1", 0))
        KEPT.append(it)
        return it.getsockname()[1]


def is_bound(port):
    """Whether somebody has this port for datagrams."""
    with open("/proc/net/udp", encoding="ascii") as it:
        return f":{port:04X}" in {line.split()[1][-5:] for line in it.readlines()[1:]}


def is_answered(port):
    """Whether somebody takes connections at this port."""
    try:
        socket.create_connection(("127.0.0.1", port), timeout=1).close()
        return True
    except OSError:
        return False
