#!/usr/bin/env python3
"""Measures `settle` beside a plain C program of the same output (plain.c), by turns in one run.

    python3 bench/settle/measure.py crates/settle/out/settle [ANOTHER ..]

For each ring in rings/ it prints the least time of 101 runs of each program, less that of a program that does nothing, and its ratio to
plain.c. It ends with 1 where an output differs.
"""
import os
import subprocess
import sys
import tempfile
import time

FOLDER = os.path.dirname(os.path.abspath(__file__))
RINGS = ("ladder", "manysteps", "silences", "shifted", "random")
RUNS = 101


def compiled(folder, name, source):
    path = os.path.join(folder, name)
    subprocess.run(["gcc", "-O2", "-x", "c", "-o", path, "-"], input=source, check=True)
    return path


def milliseconds(program, ring, sink):
    with open(ring, "rb") as source:
        wired = [(os.POSIX_SPAWN_DUP2, source.fileno(), 0), (os.POSIX_SPAWN_DUP2, sink, 1)]
        begun = time.perf_counter()
        os.waitpid(os.posix_spawn(program, [program], os.environ, file_actions=wired), 0)
        return 1000 * (time.perf_counter() - begun)


def output(program, ring):
    with open(ring, "rb") as source:
        return subprocess.run([program], stdin=source, stdout=subprocess.PIPE, check=True).stdout


def main():
    measured = [os.path.abspath(path) for path in sys.argv[1:]]
    if not measured:
        sys.exit(__doc__)
    sink = os.open(os.devnull, os.O_WRONLY)
    alike = True
    with tempfile.TemporaryDirectory() as folder:
        with open(os.path.join(FOLDER, "plain.c"), "rb") as source:
            plain = compiled(folder, "plain", source.read())
        nothing = compiled(folder, "nothing", b"int main(void) { return 0; }")
        programs = [nothing, plain] + measured
        for name in RINGS:
            ring = os.path.join(FOLDER, "rings", name + ".txt")
            wanted = output(plain, ring)
            alike &= all(output(program, ring) == wanted for program in measured)
            times = [[] for _ in programs]
            for _ in range(RUNS):
                for taken, program in zip(times, programs):
                    taken.append(milliseconds(program, ring, sink))
            least = [min(taken) - min(times[0]) for taken in times[1:]]
            told = ", ".join("%.2f ms (%.2f)" % (taken, taken / least[0]) for taken in least[1:])
            print("%-10s plain C %.2f ms; %s" % (name, least[0], told))
    if not alike:
        sys.exit("an output differs from that of plain.c")


if __name__ == "__main__":
    main()
