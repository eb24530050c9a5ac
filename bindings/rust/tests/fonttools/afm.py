"""Reads and writes AFM files with fontTools, for a test and a benchmark.

Commands come on standard input, one a line, and each is answered by one line, with
the nanoseconds that fontTools took:

    load LENGTH   a section of so many bytes follows; no answer
    read          reads a file with that section; answers the time
    pairs         answers the number of pairs that were read, and then each pair in a
                  line left;right;value
    write         writes the pairs that were read to another file; answers the time
"""

import os
import sys
import tempfile
import time

from fontTools.afmLib import AFM

BEFORE = b"StartFontMetrics 2.0\nStartKernData\n"
BEHIND = b"EndKernData\nEndFontMetrics\n"


def timed(call):
    start = time.perf_counter_ns()
    given = call()
    return given, time.perf_counter_ns() - start


def serve(folder, requests, answers):
    given, taken = os.path.join(folder, "given.afm"), os.path.join(folder, "taken.afm")
    font = None
    for line in iter(requests.readline, b""):
        command, *length = line.split()
        if command == b"load":
            with open(given, "wb") as file:
                file.write(BEFORE + requests.read(int(length[0])) + BEHIND)
            continue
        if command == b"read":
            font, nanoseconds = timed(lambda: AFM(given))
            answers.write(f"{nanoseconds}\n")
        elif command == b"write":
            _, nanoseconds = timed(lambda: font.write(taken, sep="\n"))
            answers.write(f"{nanoseconds}\n")
        else:
            pairs = font.kernpairs()
            rows = [f"{left};{right};{font[(left, right)]}\n" for left, right in pairs]
            answers.write(f"{len(rows)}\n" + "".join(rows))
        answers.flush()


with tempfile.TemporaryDirectory() as folder:
    serve(folder, sys.stdin.buffer, sys.stdout)
