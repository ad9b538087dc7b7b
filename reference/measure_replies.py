#!/usr/bin/env python3
"""Measures the reader of replies beside hiredis on a megabyte of the registry's own replies, and writes a table in Markdown.

    measure_replies.py PROGRAM      tests/replies_cost.c, built with the library and Debian's libhiredis-dev (0.14)

The replies are the model's, repeated up to SIZE bytes. All read the same bytes in chunks of 16,384, in turn; the least processor time of 41 passes
counts. The call clears the lent table each time, so the library is measured with the fewest places that suffice and with PLACES.
"""
import subprocess
import sys

from generate import array_bytes
from measure import load, must, processor, ratio, row
from model import Registry, Store
from replies import read_reply

SIZE = 1000000
PLACES = 128
KEYS = 60
MANY_PLACES = 1 << 30


class Console:
    """A console of the model's registry, with KEYS keys of 8 bytes each and one of 1,000."""

    def __init__(self):
        self.registry = Registry(Store(0, 10000, 1000000))
        for i in range(KEYS):
            self.ask("SET", self.key(i), "%08d" % i)
        self.ask("SET", "long", "x" * 1000)

    def key(self, i):
        return "station:%04d" % (i % KEYS)

    def ask(self, *words):
        answer = self.registry.request(0, array_bytes([word.encode() for word in words]))
        must(answer.number == 0, f"{words}: number {answer.number}")
        return answer.reply

    def get(self, i):
        return self.ask("GET", self.key(i))

    def increment(self, i):
        return self.ask("INCRBY", "n", str(i))

    def several(self, i, count):
        return self.ask("MGET", *(self.key(i + j) for j in range(count)))

    def keys(self):
        return self.ask("KEYS", "station:*")

    def execute(self, i):
        """The replies to MULTI, five commands and EXEC."""
        replies = [self.ask("MULTI")]
        replies += [self.ask("SET", self.key(i), "%08d" % i), self.get(i), self.increment(i), self.several(i, 10), self.ask("GET", "absent")]
        return b"".join(replies + [self.ask("EXEC")])

    def mixed(self, i):
        parts = [self.ask("SET", self.key(i), "%08d" % i), self.get(i), self.increment(i), self.ask("GET", "absent"), self.ask("GET")]
        return b"".join(parts + [self.several(i, 40), self.execute(i)])


def rows():
    console = Console()
    return {
        "`SET`: `+OK`": [console.ask("SET", console.key(0), "%08d" % 0)],
        "`INCRBY`: 1 to 4 digits": [console.increment(i) for i in range(100)],
        "`GET` of 8 bytes": [console.get(i) for i in range(KEYS)],
        "`GET` of 1,000 bytes": [console.ask("GET", "long")],
        "`GET` of nothing: `$-1`": [console.ask("GET", "absent")],
        "`MGET` of 40": [console.several(i, 40) for i in range(KEYS)],
        "`KEYS`, 60 names": [console.keys()],
        "`MULTI`, 5 commands, `EXEC`": [console.execute(i) for i in range(100)],
        "all of these": [console.mixed(i) for i in range(100)] + [console.keys()],
    }


def repeated(replies):
    """As many of the replies, in turn, as SIZE bytes hold."""
    once = b"".join(replies)
    return once * (SIZE // len(once))


def most_items(data):
    """The items of the longest reply."""
    most, at = 0, 0
    while at < len(data):
        _, used, items = read_reply(data[at : at + SIZE // 10], MANY_PLACES)
        most, at = max(most, len(items)), at + used
    return most


HEADINGS = ["Replies (fewest places)", "count", "bytes", "library ns", "MB/s", f"with {PLACES} places ns", "MB/s", "hiredis with objects ns", "MB/s"]
HEADINGS += ["hiredis without ns", "MB/s", "with objects over library", "without over library"]


def measure(program, name, replies):
    """The cells of a row: times of a reply in nanoseconds, and how often hiredis takes the time that the library takes with the fewest places."""
    data, few = repeated(replies), most_items(b"".join(replies))
    ran = subprocess.run([program, str(few), str(PLACES)], input=data, stdout=subprocess.PIPE, check=True)
    lines = [line.split() for line in ran.stdout.decode().splitlines()]
    count, least = int(lines[0][0]), [float(time) for _, time in lines]
    costs = [cell for time in least for cell in (f"{time / count:.1f}", f"{1000 * len(data) / time:,.0f}")]
    return [f"{name} ({few})", f"{count:,}", f"{len(data):,}", *costs, ratio(least[0], least[2]), ratio(least[0], least[3])]


def main(argv):
    must(len(argv) == 1, __doc__)
    before = load()
    row(*HEADINGS)
    row(*["---"] * len(HEADINGS))
    for name, replies in rows().items():
        row(*measure(argv[0], name, replies))
    print(f"\n{processor()}. Load average {before:.2f} before, {load():.2f} after; the measuring itself makes about 1.")
    return 0


if __name__ == "__main__":
    sys.exit(main(sys.argv[1:]))
