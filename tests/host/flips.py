"""Flips bits of a store's files, one after the other, and runs the program on each: flips.py PROGRAM STORE IMAGE FOLDER STEP.

In book and lock list, collect, backup and restore each have to notice the flip, and to leave all files as they are. After one in
the pool a restore tells of it or gives the right bytes, and a backup of the image heals it. Prints a line for each kind of
flip, which starts with `good` if all is well.
"""
import os
import sys
import threading

PROGRAM = sys.argv[1].split()
STORE, IMAGE, FOLDER, STEP = sys.argv[2], os.path.abspath(sys.argv[3]), sys.argv[4], int(sys.argv[5])
NAMES = ["book", "lock", "pool"]
POOL_STEP = 37
# Each with the statuses by which it notices. A book at fault may also say that it has no such backup, which is 3.
NOTICING = {
    "list": (["list", "box"], (1, 5)),
    "collect": (["collect", "box", "--day", "2026-01-03"], (5,)),
    "backup": (["backup", "box", "0", IMAGE, "--day", "2026-01-03"], (5,)),
    "restore": (["restore", "box", "0", "1", "out", "--force"], (1, 3, 5)),
}


def content(path):
    with open(path, "rb") as file:
        return file.read()


WHOLE = {name: content(os.path.join(STORE, name)) for name in NAMES}
BYTES = content(IMAGE)
tried = {}
wrong = {}
lock = threading.Lock()


def note(kind, problems):
    with lock:
        tried[kind] = tried.get(kind, 0) + 1
        if problems:
            wrong.setdefault(kind, []).append(problems)


class Worker:
    """A copy of the store in a folder of its own."""

    def __init__(self, name):
        self.folder = os.path.join(FOLDER, name)
        os.makedirs(os.path.join(self.folder, "box"))
        self.output = os.open(os.path.join(self.folder, "said"), os.O_RDWR | os.O_CREAT)

    def path(self, name):
        return os.path.join(self.folder, name)

    def set_file(self, name, value):
        with open(self.path("box/" + name), "wb") as file:
            file.write(value)

    def reset(self):
        for name in NAMES:
            self.set_file(name, WHOLE[name])

    def run(self, arguments):
        """The status, and what was said."""
        os.ftruncate(self.output, 0)
        os.lseek(self.output, 0, os.SEEK_SET)
        paths = [self.path(a) if a in ("box", "out") else a for a in arguments]
        actions = [(os.POSIX_SPAWN_DUP2, self.output, 1), (os.POSIX_SPAWN_DUP2, self.output, 2)]
        child = os.posix_spawnp(PROGRAM[0], PROGRAM + paths, os.environ, file_actions=actions)
        status = os.waitstatus_to_exitcode(os.waitpid(child, 0)[1])
        return status, os.pread(self.output, 4096, 0)

    def same(self, wanted):
        return sorted(os.listdir(self.path("box"))) == NAMES and all(
            content(self.path("box/" + name)) == wanted[name] for name in NAMES
        )

    def restore(self, number):
        """The status, and whether the bytes are right; that is so too where none came."""
        if os.path.exists(self.path("out")):
            os.unlink(self.path("out"))
        status, said = self.run(["restore", "box", "0", number, "out"])
        made = os.path.exists(self.path("out"))
        return status, said, not made or content(self.path("out")) == BYTES

    def in_book_or_lock(self, name, bit):
        flipped = dict(WHOLE, **{name: flip(WHOLE[name], bit)})
        self.set_file(name, flipped[name])
        for command, (arguments, statuses) in NOTICING.items():
            status, said = self.run(arguments)
            kept = self.same(flipped)
            problem = status not in statuses or b"put back a copy" not in said or not kept
            note(f"{name}, {command}", problem and f"bit {bit}: status {status}, said {said}, files kept {kept}")
            if not kept:
                self.reset()
                self.set_file(name, flipped[name])
        self.set_file(name, WHOLE[name])

    def in_pool(self, bit):
        self.set_file("pool", flip(WHOLE["pool"], bit))
        held = bit < 8 * 512  # the first block is the image's
        status, said, right = self.restore("1")
        told = b"LBN 0 is damaged" in said
        note("pool, restore", (status != held or told != held) and f"bit {bit}: status {status}, said {said}")
        note("pool, bytes", status == 0 and not right and f"bit {bit}: 0 and wrong bytes")
        self.run(["list", "box"])
        self.run(["collect", "box", "--day", "2026-01-03"])
        status, said = self.run(["backup", "box", "0", IMAGE, "--day", "2026-01-03"])
        healed = content(self.path("box/pool"))[:512] == WHOLE["pool"][:512]
        note("pool, backup", (status != 0 or not healed) and f"bit {bit}: status {status}, healed {healed}")
        for number in "12":
            status, said, right = self.restore(number)
            note("pool, healed", (status != 0 or not right) and f"bit {bit}: status {status}, right {right}")
        self.reset()


def flip(value, bit):
    changed = bytearray(value)
    changed[bit // 8] ^= 1 << bit % 8
    return bytes(changed)


def all_flips():
    for name in ("book", "lock"):
        for bit in range(0, 8 * len(WHOLE[name]), STEP):
            yield name, bit
    for bit in range(0, 8 * len(WHOLE["pool"]), POOL_STEP * STEP):
        yield "pool", bit


def work(worker, flips):
    worker.reset()
    for name, bit in flips:
        if name == "pool":
            worker.in_pool(bit)
        else:
            worker.in_book_or_lock(name, bit)


def main():
    flips = list(all_flips())
    count = os.cpu_count() or 1
    threads = [threading.Thread(target=work, args=(Worker(f"{i}"), flips[i::count])) for i in range(count)]
    for thread in threads:
        thread.start()
    for thread in threads:
        thread.join()
    for kind, number in tried.items():
        bad = wrong.get(kind, [])
        print(f"good {kind}: {number} flips" if not bad else f"{kind}: {len(bad)} of {number} flips: {'; '.join(bad[:3])}")
    if len(tried) != 12:
        print(f"bad: only {sorted(tried)} were tried")


main()
