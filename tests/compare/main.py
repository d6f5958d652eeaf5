"""Random traces through the trace program, held byte for byte to tests/reading and compared with the original's table (demand 2). tests/compare/run runs it, with the program, the number of traces and the first seed."""

import subprocess
import sys
from collections import Counter
from concurrent.futures import ProcessPoolExecutor
from itertools import repeat
from pathlib import Path

sys.dont_write_bytecode = True
TESTS = Path(__file__).resolve().parents[1]
sys.path.append(str(TESTS))

from compare import original
from compare.agreement import Agreement
from compare.traces import Trace, drawn_trace, remade
from reading import trace

BATCH = 100  # traces that one process of the oracle answers
SECONDS = 60  # in which a trace is answered, or it is taken not to end
SHOWN = 2  # disagreements of a batch that are made smaller and shown whole
NAMES = ("Nil", "Boolean", "Integer", "Number", "String", "Table", "Closure", "Callback", "Thread", "UserData")


def answered(program, given):
    """What the trace program writes, and how it failed, or None."""
    try:
        ended = subprocess.run(program, input=given, stdout=subprocess.PIPE, timeout=SECONDS)
    except subprocess.TimeoutExpired:
        return b"", f"no end within {SECONDS} s"
    return ended.stdout, f"ended with status {ended.returncode}" if ended.returncode else None


def whole(out):
    """The replies up to one that is cut."""
    at = 0
    while len(out) - at >= 4 and trace.taken(out, at)[2] <= len(out):
        at = trace.taken(out, at)[2]
    return out[:at]


def first_difference(out, wanted):
    """The first record in which two outputs differ, and what each has from there."""
    number, at = 1, 0
    while at < len(wanted) and out[at : trace.taken(wanted, at)[2]] == wanted[at : trace.taken(wanted, at)[2]]:
        number, at = number + 1, trace.taken(wanted, at)[2]
    return f"record {number}: answered {out[at:][:40].hex()}, by tests/reading {wanted[at:][:40].hex()}"


def findings(program, one, theirs, counts):
    """Each disagreement of a trace, as text."""
    given = one.given()
    out, failure = answered(program, given)
    wanted = trace.answer(given)
    if one.end:
        counts[f"bad ends with fault {wanted[-1]}"] += 1
    found = [failure] if failure else []
    if out != wanted:
        found.append(first_difference(out, wanted))
    apart = Agreement(counts).compared(one.steps, whole(out), theirs)
    if apart:
        number, step, mine, its = apart
        found.append(f"record {number}: {shown(step)}: answered {told(mine)}, by the original {told(its)}")
    return found


def smallest(program, one):
    """The trace with every step left out that need not be there for a disagreement, by shorter and shorter runs of them."""
    size = len(one.steps)
    while size > 0:
        before, one = len(one.steps), without(program, one, size)
        if size > 1 or len(one.steps) == before:
            size //= 2
    return one


def without(program, one, size):
    """With runs of so many steps left out where it still disagrees."""
    at = 0
    while at < len(one.steps):
        fewer = Trace(one.seed, remade(one.steps[:at] + one.steps[at + size :]), one.end)
        if findings(program, fewer, original.answers([fewer])[0], Counter()):
            one = fewer
        else:
            at += size
    return one


def told(replies):
    """The bodies of replies."""
    return " ".join("none" if reply is None else reply[1].hex() for reply in replies)[:400]


def shown(step):
    """A step as a line of text; of a walk only that it is one."""
    if step.name == "walk":
        return "walk"
    return " ".join([step.name] + [f"{NAMES[x[0]]}({x[1]:#x})" if isinstance(x, tuple) else str(x) for x in step.passed])


def report(program, one, found, in_full):
    """The text of a disagreement."""
    lines = [f"seed {one.seed}:"] + ["  " + text for text in found]
    if in_full:
        one = smallest(program, one)
        lines += ["  smallest input:"] + ["    " + shown(step) for step in one.steps] + ["    then " + one.end.hex()] * bool(one.end)
        lines += ["  which gives:"] + ["    " + text for text in findings(program, one, original.answers([one])[0], Counter())]
    return "\n".join(lines)


def count(traces, counts):
    counts["traces"] += len(traces)
    counts["records"] += sum(step.size() for one in traces for step in one.steps)
    counts["traces with a bad end"] += sum(bool(one.end) for one in traces)
    refused = [sum(step.refused for step in one.steps) for one in traces]
    counts["calls refused for want of room, not given to the original"] += sum(refused)
    counts["traces with such calls"] += sum(map(bool, refused))


def compare(program, first, end):
    """What was counted, and the text of each disagreement."""
    counts, texts = Counter(), []
    traces = [drawn_trace(seed) for seed in range(first, end)]
    count(traces, counts)
    for one, theirs in zip(traces, original.answers(traces)):
        found = findings(program, one, theirs, counts)
        if found:
            texts.append(report(program, one, found, len(texts) < SHOWN))
    return counts, texts


def main():
    *program, traces, seed = sys.argv[1:]
    first, end = int(seed), int(seed) + int(traces)
    counts, disagreements = Counter(), 0
    starts = range(first, end, BATCH)
    with ProcessPoolExecutor() as pool:
        for counted, texts in pool.map(compare, repeat(program), starts, [min(start + BATCH, end) for start in starts]):
            counts += counted
            disagreements += len(texts)
            print("".join(text + "\n" for text in texts), end="", flush=True)
    print("".join(f"{n:9,} {name}\n" for name, n in counts.items()) + f"{disagreements:9,} disagreements")
    sys.exit(1 if disagreements else 0)


if __name__ == "__main__":
    main()
