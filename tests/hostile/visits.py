"""visits.py PROGRAM [STORES] [SEED] [FIRST] [ROOM]: counts what each call of the program touches.

The program (hostile.c) runs under valgrind's lackey, which writes every access to memory. The program writes to its variable `marker` before and
after each call, and describes the call in a file first: the slices, their bounds (bounds.c), the out pointers and the frame it is called from.
An access between two such writes lies in a slice that is lent, in an out word that is passed, on the stack below the caller's frame, or is
a load of the program's constants; anything else is stray. Accesses to a slice are counted in bytes, as wide as they are, and divided by the width of
a word; one that loads and stores counts twice. Exits with 1 at the first call over its bound or with a stray access.
"""

import os
import struct
import subprocess
import sys
import tempfile

CALLS = ("check", "fresh", "get", "set", "next", "length", "reserve")
SLICES = ("array", "entries", "index")
WIDTH = (8, 8, 2)
OUTS = 8
DESCRIPTION = struct.Struct(f"<{4 + 3 * len(SLICES) + OUTS}Q")
STACK = 4096
SPACE, MODIFY, LOAD = b" "[0], b"M"[0], b"L"[0]


class Call:
    def __init__(self, description):
        self.store, self.serial, kind, self.frame = description[:4]
        self.name = CALLS[kind]
        parts = description[4 : 4 + 3 * len(SLICES)]
        self.slices = [(parts[i], parts[i] + parts[i + 1]) for i in range(0, len(parts), 3)]
        self.bounds = parts[2::3]
        self.outs = [(at, at + 8) for at in description[-OUTS:] if at]
        self.bytes = [0] * len(SLICES)

    def visit(self, operation, start, end, constants):
        """Whether the access is to something that the call may touch."""
        for i, (low, high) in enumerate(self.slices):
            if low <= start and end <= high:
                self.bytes[i] += (end - start) * (2 if operation == MODIFY else 1)
                return True
        if self.frame - STACK <= start and end <= self.frame:
            return True
        if any(low <= start and end <= high for low, high in self.outs):
            return True
        return operation == LOAD and any(low <= start and end <= high for low, high in constants)

    def words(self):
        return [-(-n // width) for n, width in zip(self.bytes, WIDTH)]


class Tally:
    def __init__(self):
        self.calls = self.words = 0
        self.most = (0, 0)
        self.nearest = 0.0

    def add(self, call):
        words, bounds = sum(call.words()), sum(call.bounds)
        self.calls += 1
        self.words += words
        self.most = max(self.most, (words, bounds))
        if bounds:
            self.nearest = max(self.nearest, words / bounds)


def address_of_marker(program):
    for line in subprocess.run(["nm", program], check=True, capture_output=True, text=True).stdout.splitlines():
        if line.endswith(" marker"):
            return int(line.split()[0], 16)
    sys.exit(f"{program} has no marker")


def constants_of(process, program):
    """The mappings of the program's file that are neither written to nor run."""
    found = []
    with open(f"/proc/{process.pid}/maps") as maps:
        for line in maps:
            part = line.split()
            if part[1] == "r--p" and part[-1] == os.path.realpath(program):
                found.append(tuple(int(x, 16) for x in part[0].split("-")))
    return found


def refuse(call, why):
    print(f"FAILED: store {call.store}, {call.name}: {why}")
    return False


def within(call):
    for name, words, bound in zip(SLICES, call.words(), call.bounds):
        if words > bound:
            return refuse(call, f"{words} words of the {name} visited, and the bound is {bound}")
    return True


def judge(process, program, described, tallies):
    """Reads the trace to its end. Whether every call kept to what it may do."""
    mark = b" S %08x,8\n" % address_of_marker(program)
    call, constants = None, None
    for line in process.stderr:
        if line == mark:
            if call is None:
                constants = constants or constants_of(process, program)
                call = Call(DESCRIPTION.unpack(described.read(DESCRIPTION.size)))
                continue
            if not within(call):
                return False
            tallies[call.name].add(call)
            call = None
        elif call is not None and line[0] == SPACE:
            start, size = line[3:].split(b",")
            start = int(start, 16)
            if not call.visit(line[1], start, start + int(size), constants):
                refuse(call, f"a stray access: {line.decode().strip()}")
                return False
    return True


def report(tallies, stores, seed):
    for name in CALLS:
        t = tallies[name]
        print(f"{name:8} {t.calls} calls, {t.words} words; the most in one {t.most[0]}, bound {t.most[1]}; nearest to a bound: {t.nearest:.2f} of it")
    calls = sum(t.calls for t in tallies.values())
    words = sum(t.words for t in tallies.values())
    print(f"{stores} stores of seed {seed}: {calls} calls, {words} words visited, each call within its bound; no stray access")


def main(program, stores="1000", seed="1", first="0", room="32"):
    tallies = {name: Tally() for name in CALLS}
    with tempfile.NamedTemporaryFile() as described:
        command = ["valgrind", "--tool=lackey", "--trace-mem=yes", program, stores, seed, first, room, described.name]
        process = subprocess.Popen(command, stderr=subprocess.PIPE, stdout=subprocess.PIPE, bufsize=1 << 20)
        # every call that is described must also be seen
        with open(described.name, "rb") as calls:
            kept = judge(process, program, calls, tallies) and not calls.read(1)
        if not kept:
            process.kill()
        said = process.stdout.read().decode()
        if process.wait() != 0 or not kept:
            print(said, end="")
            return 1
    if not sum(t.calls for t in tallies.values()):
        print("FAILED: no call was seen")
        return 1
    report(tallies, stores, seed)
    return 0


if __name__ == "__main__":
    sys.exit(main(*sys.argv[1:]))
