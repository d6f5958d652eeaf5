"""The original's answers: traces through the oracle, which tests/compare/oracle/build has built."""

import os
import resource
import struct
import subprocess
from pathlib import Path
from signal import SIGABRT

from reading import trace

HERE = Path(__file__).resolve().parent
BUILD = HERE / "oracle/build"
PROGRAM = HERE.parents[1] / "target/oracle/target/release/oracle"
# Kinds of records that only the oracle has: a whole walk, which it makes by itself, the sizes of array and map, reserve_array, the collection of an object, and the end of a trace in a panic.
WALK, SIZES, RESERVE_ARRAY, COLLECT, PANIC = 6, 7, 8, 9, 512
# One that is made here, where the oracle's process has aborted: what it said.
ABORT = 513


def within(memory):
    """To be called in a new process: it has so many bytes of addresses and no more, and leaves no file where it aborts. None where there is no limit."""

    def limit():
        resource.setrlimit(resource.RLIMIT_AS, (memory, memory))
        resource.setrlimit(resource.RLIMIT_CORE, (0, 0))

    return memory and limit


def asked(records, memory):
    """The oracle's process, once it has ended. It writes no backtrace, which would take most of the time."""
    data = b"".join(struct.pack("<II", seed, len(calls)) + calls for seed, calls in records)
    given = {"input": data, "stdout": subprocess.PIPE, "stderr": memory and subprocess.PIPE}
    return subprocess.run([PROGRAM], **given, env={**os.environ, "RUST_BACKTRACE": "0"}, preexec_fn=within(memory))


def replies(records, memory=None):
    """The replies of a table of the original's to the records of each trace, which come with their hash seeds. Where memory is limited each trace has a process of its own: an abort ends that, and is the only reply."""
    if memory and len(records) > 1:
        return [out for one in records for out in replies([one], memory)]
    ended = asked(records, memory)
    if memory and ended.returncode == -SIGABRT:
        return [trace.record(ABORT, ended.stderr.splitlines()[0])]
    ended.check_returncode()
    out, found, at = ended.stdout, [], 0
    while at < len(out):
        (length,) = struct.unpack_from("<I", out, at)
        found.append(out[at + 4 : at + 4 + length])
        at += 4 + length
    assert len(found) == len(records), "the oracle did not answer every trace"
    return found


def answers(traces):
    """What the original's table answers to each trace."""
    return replies([(one.seed % 2**32, one.originals()) for one in traces])
