"""Times the desk program over pipes: what one line of each kind costs on a full table.

A script fills the register and the node table. It is run alone and with many lines of one kind
behind it, in turn; the least times are taken, and their difference is divided by the number of
lines.
"""

import os
import random
import subprocess
import tempfile
import time

from measure.building import CannotMeasure

NODES = 2048
TRIES = 7
STARTS = 30
# Parts, nodes that the kits take, and how many lines of a kind are timed.
SHOPS = ((255, NODES, 4000), (32, NODES, 4000),
         (255, 1024, 2000), (255, 256, 2000), (255, 64, 2000))


def numbers(parts):
    family = ["IC-", "R", "C/", "TR-", "POT."]
    return ["%s%d" % (family[k % 5], 100 + 37 * k) for k in range(parts)]


def units_of(kit):
    """The places of a kit's units, one behind the other."""
    return tuple(place for place, quantity in kit for _ in range(quantity))


class Shop:
    """Kits over Zipf 1, quantities 1 to 4, until the nodes are full but for some."""

    def __init__(self, parts, nodes, seed=1):
        self.chance = random.Random(seed)
        self.numbers = numbers(parts)
        self.places = list(range(parts))
        self.chance.shuffle(self.places)
        self.weights = [1 / (rank + 1) for rank in range(parts)]
        self.beginnings, self.kits = set(), {}
        while len(self.beginnings) < nodes - 40:
            kit = self.kit()
            units = units_of(kit)
            if len(units) <= 40:
                self.kits[units] = kit
                self.beginnings.update(units[:i] for i in range(1, len(units) + 1))

    def kit(self, lines=None):
        """A kit of so many lines, each a place and a quantity."""
        lines = lines or self.chance.choice([2, 3, 4, 5, 5, 6, 7, 8])
        picked = set()
        while len(picked) < lines:
            picked.add(self.chance.choices(self.places, self.weights)[0])
        return [(place, self.chance.randint(1, 4)) for place in sorted(picked)]

    def line(self, letter, kit, tag=None):
        """A line with a kit."""
        words = [letter] + ([str(tag)] if tag else [])
        for place, quantity in kit:
            words += [self.numbers[place], str(quantity)]
        return " ".join(words)

    def start(self):
        """The lines that register all parts and enter all kits."""
        lines = ["P " + number for number in self.numbers]
        return lines + [self.line("K", kit, 1 + 7 * k) for k, kit in enumerate(self.kits.values())]

    def fresh(self, many):
        """Lines that enter a kit and strike it out again."""
        for kit in [self.kit(3) for _ in range(many)]:
            if units_of(kit) not in self.kits:
                yield from (self.line("K", kit, 65535), self.line("D", kit))

    def kinds(self, many):
        """The kinds of lines, each with its lines."""
        some = self.chance.choices(list(self.kits.values()), k=many)
        bins = [self.kit(24) for _ in range(many)]
        ones = [self.kit(1 + k % 2) for k in range(many)]
        yield "? (not a line)", ["x"] * (many * 10)
        yield "P, held", ["P " + n for n in self.chance.choices(self.numbers, k=many * 10)]
        yield "F, held", [self.line("F", kit) for kit in some]
        yield "K, held", [self.line("K", kit, 65535) for kit in some]
        yield "K and D, fresh", list(self.fresh(many))
        for letter, what, kits in (("B", "bins of 24", bins), ("S", "1 or 2 parts", ones),
                                   ("b", "bins of 24", bins), ("s", "1 or 2 parts", ones)):
            yield "%s, %s" % (letter, what), [self.line(letter, kit) for kit in kits]
        yield "W", ["W"] * (many // 4)


def run(command, path):
    """Feeds a file through pipes: wall and processor seconds, and the replies."""
    with open(path, "rb") as f:
        feed = subprocess.Popen(["cat"], stdin=f, stdout=subprocess.PIPE)
        began = time.perf_counter()
        desk = subprocess.Popen(command, stdin=feed.stdout, stdout=subprocess.PIPE)
        feed.stdout.close()
        replies = []
        while piece := os.read(desk.stdout.fileno(), 1 << 20):
            replies.append(piece)
        took = time.perf_counter() - began
        _, status, used = os.wait4(desk.pid, 0)
        desk.returncode = status
        feed.wait()
    if status:
        raise CannotMeasure("the desk ended with %d" % status)
    return took, used.ru_utime + used.ru_stime, b"".join(replies)


def least_times(command, files, lines):
    """The least wall and processor seconds for each file; the last is answered by so many lines."""
    least = [[9e9, 9e9] for _ in files]
    for _ in range(TRIES):
        for at, path in enumerate(files):
            wall, cpu, replies = run(command, path)
            least[at] = [min(least[at][0], wall), min(least[at][1], cpu)]
    if replies.count(b"\n") != lines:
        raise CannotMeasure("replies of the desk are missing")
    return least


def one_shop(command, parts, nodes, many):
    """A line for each kind of line."""
    shop = Shop(parts, nodes)
    start = "".join(line + "\n" for line in shop.start())
    print("\nthe desk over pipes: %d parts, about %d of %d nodes used, %d kits" % (
        parts, len(shop.beginnings) + 1, NODES, len(shop.kits)))
    print("%-18s %7s %12s %12s %12s" % ("line", "lines", "wall us", "cpu us", "lines/s"))
    with tempfile.TemporaryDirectory() as folder:
        files = [os.path.join(folder, name) for name in ("base", "lines")]
        with open(files[0], "w", encoding="ascii") as file:
            file.write(start)
        for name, lines in shop.kinds(many):
            with open(files[1], "w", encoding="ascii") as file:
                file.write(start + "".join(line + "\n" for line in lines))
            alone, all_of_it = least_times(command, files, start.count("\n") + len(lines))
            wall, cpu = ((b - a) / len(lines) for a, b in zip(alone, all_of_it))
            print("%-18s %7d %12.2f %12.2f %12.0f" % (
                name, len(lines), wall * 1e6, cpu * 1e6, 1 / wall), flush=True)


def measure(command):
    """The start of this desk, then each kind of line in each shop."""
    least = min(run(command, os.devnull)[0] for _ in range(STARTS))
    print("\nstarting and ending the desk on no input: %.2f ms" % (least * 1e3))
    for shop in SHOPS:
        one_shop(command, *shop)
