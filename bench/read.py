#!/usr/bin/env python3
"""Times the built program on generated files, and prints its speed and its peak memory.

usage: bench/read.py [MEGABYTES]     after ./prove has built the program

The clauses have one to five literals over 1,500 atoms. The file is read twice: with a sign at its end that no file
has there, so that it is refused and all the time is reading; and without, where two contradictory units end the
search at its first split, after a look at each clause. Times are of the processor, user and system together, the
best of five runs.
"""
import os
import random
import resource
import subprocess
import sys
import tempfile

TOP = os.path.dirname(os.path.dirname(os.path.abspath(__file__)))
PROGRAM = os.path.join(TOP, "crates", "darwin", "out", "darwin")


def clauses(size):
    draw = random.Random(7)
    yield "cnf(yes,axiom,top).\ncnf(no,axiom,~top).\n"
    written, number = 40, 0
    while written < size:
        number += 1
        literals = []
        for _ in range(draw.randint(1, 5)):
            sign = "~" if draw.random() < 0.5 else ""
            literals.append(f"{sign}atom{draw.randrange(1500)}")
        line = f"cnf(c{number},axiom,{'|'.join(literals)}).\n"
        written += len(line)
        yield line


def processor_seconds():
    used = resource.getrusage(resource.RUSAGE_CHILDREN)
    return used.ru_utime + used.ru_stime


def time_program(name, lines):
    with tempfile.TemporaryFile("w+") as file:
        for line in lines:
            file.write(line)
        file.flush()
        size = file.tell()
        seconds = []
        for _ in range(5):
            file.seek(0)
            begun = processor_seconds()
            ended = subprocess.run([PROGRAM], stdin=file, stdout=subprocess.PIPE)
            seconds.append(processor_seconds() - begun)
    peak = resource.getrusage(resource.RUSAGE_CHILDREN).ru_maxrss * 1024
    print(f"{name}: {ended.stdout.decode().splitlines()[0]}")
    print(f"{size / 1e6:.1f} MB in {min(seconds):.2f} s: {size / 1e6 / min(seconds):.1f} MB/s")
    print(f"peak memory {peak / 1e6:.0f} MB: {peak / size:.1f} bytes a byte of the file")


def main():
    megabytes = int(sys.argv[1]) if len(sys.argv) > 1 else 10
    lines = list(clauses(megabytes * 1_000_000))
    time_program("read alone", lines + ["#"])
    time_program("read and refuted", lines)


main()
