"""Counters that take hours or days to reach their limits: each check moves one in the memory of a server that runs."""

import os

from operating.servers import HELLO, check, comes_true, expect, is_over, served, talk
from talking import SERVICE, LeftOut, Wrong

READS, ALMOST_ALL_READS, ALMOST_ALL_NUMBERS = 16_777_216, 15_099_494, 3_865_470_566
READS_WARNED = "warning: a connection has made nine tenths of its 16777216 reads: its client should connect again\n"
READS_OVER = "warning: a connection has ended, since it has made 16777216 reads\n"
NUMBERS_WARNED = (
    "warning: nine tenths of the 4294967295 client numbers are used: the server should be restarted\n"
)

# The most bytes that are read of the memory at once.
AT_ONCE = 1 << 20


class Memory:
    """What a child has in its memory that it can write to."""

    def __init__(self, server):
        self.folder = f"/proc/{server.child.pid}"

    def __enter__(self):
        try:
            self.file = os.open(f"{self.folder}/mem", os.O_RDWR)
        except PermissionError:
            raise LeftOut("the memory of a child can't be changed") from None
        return self

    def __exit__(self, *_):
        os.close(self.file)

    def areas(self, name):
        """The pieces of those whose description ends with this name."""
        with open(f"{self.folder}/maps", encoding="utf-8") as maps:
            areas = [line.split() for line in maps if line.rstrip().endswith(name) and "[v" not in line]
        for addresses, rights, *_ in areas:
            if rights.startswith("rw"):
                first, end = (int(address, 16) for address in addresses.split("-"))
                yield from ((at, min(AT_ONCE, end - at)) for at in range(first, end, AT_ONCE))

    def places(self, number, size, name):
        """The addresses of a number of this size, aligned."""
        wanted, found = number.to_bytes(size, "little"), []
        for first, length in self.areas(name):
            piece, at = os.pread(self.file, length, first), -1
            while (at := piece.find(wanted, at + 1)) >= 0:
                if at % size == 0:
                    found.append(first + at)
        return found

    def has(self, at, number, size):
        return os.pread(self.file, size, at) == number.to_bytes(size, "little")

    def put(self, at, number, size):
        os.pwrite(self.file, number.to_bytes(size, "little"), at)


class Counter:
    """A number of a server that `count` makes one greater. Its places are those that had the number at each look, and
    those that had the next one, which it will be."""

    def __init__(self, memory, size, count, number, name=""):
        self.memory, self.size, self.count, self.number = memory, size, count, number
        self.up(1000)
        self.found = [(more, at) for more in (0, 1) for at in memory.places(self.number + more, size, name)]
        for times in 1, 10, 100:
            self.up(times)
            self.found = [(more, at) for more, at in self.found if memory.has(at, self.number + more, size)]

    def up(self, times):
        for _ in range(times):
            self.count()
        self.number += times

    def move(self, number, and_next=True):
        """Makes it this number, and what was the next one the one after it."""
        places = [(more, at) for more, at in self.found if and_next or not more]
        if not places:
            raise Wrong(f"no place in the memory has the number {self.number}")
        for more, at in places:
            expect(self.memory.has(at, self.number + more, self.size), True, "that a place keeps its number")
            self.memory.put(at, number + more, self.size)
        self.number = number


@check
def nine_tenths_of_the_reads(program):
    """A line says so once for a connection. After its last read the connection is over, and another line says why."""
    with served(program, "--workers", "2") as server, Memory(server) as memory, server.client() as client:
        talk(client, (HELLO, "client 1"))
        reads = Counter(memory, 4, lambda: talk(client, ("version", "version 1 2")), number=1)
        reads.move(ALMOST_ALL_READS - 2)
        reads.up(1)
        server.says_no_more()
        reads.up(1)
        server.says(READS_WARNED)
        reads.up(10)
        server.says_no_more()
        reads.move(READS - 3)
        reads.up(2)
        server.says_no_more()
        reads.up(1)
        expect(is_over(client), True, "the connection ended after its last read")
        server.says(READS_OVER)
        with server.client() as other:
            talk(other, (f"hello 100 1000 {SERVICE}", "client 2"), ("version", "version 1 4"))


@check
def nine_tenths_of_the_client_numbers(program):
    """A line says so once. The counter is that of the lines alone: the clients' numbers go on as before."""

    def connect():
        with server.client() as client:
            comes_true(lambda: client.ask(HELLO).startswith("client "), "a client is connected")

    with served(program, "--workers", "2") as server, Memory(server) as memory, server.client() as first:
        talk(first, (HELLO, "client 1"))
        clients = Counter(memory, 8, connect, number=1, name="[stack]")
        clients.move(ALMOST_ALL_NUMBERS - 2, and_next=False)
        clients.up(1)
        server.says_no_more()
        clients.up(1)
        server.says(NUMBERS_WARNED)
        clients.up(3)
        server.says_no_more()
