#!/usr/bin/env python3
"""How fast the built program steps worlds, and how long it takes to settle many modules.

Runs crates/cascc/out/cascc itself (build it by `bin/cascc`), best of five. Needs python3.
"""
from read import timed

THREADS = 64


def looping():
    """A thread that loops over its locals for ever."""
    return "void w(int me) { int i; int s; s = me; while (1) { i = i + 1; s = s ^ i; } }\n"


def declaring(number, count):
    """A module of so many declarations: its own function, and tables of its own."""
    tables = "".join(f"const int t{number}_{i} = {i};\n" for i in range(count - 1))
    return f"{tables}void f{number}(int me) {{ print(t{number}_{number % (count - 1)} + me); }}\n"


def calling(modules, count):
    """64 modules of so many declarations each, of which the last calls the others' functions."""
    texts = [declaring(number, count) for number in range(modules - 1)]
    prototypes = "".join(f"void f{number}(int me);\n" for number in range(modules - 1))
    tables = "".join(f"extern const int t0_{i};\n" for i in range(count - modules))
    calls = " ".join(f"f{number}(me);" for number in range(modules - 1))
    return texts + [f"{prototypes}{tables}void w(int me) {{ {calls} }}\n"]


def main():
    print("| What | Seconds, best of five | Steps a second |")
    print("|---|---|---|")
    threads = ",".join(["w"] * THREADS)
    for rounds in (100000, 1000000):
        seconds, _ = timed("world", [looping()], ["--threads", threads, "--rounds", str(rounds)])
        steps = rounds * THREADS
        print(f"| {rounds:,} rounds of {THREADS} threads that loop over locals | {seconds:.3f} | {steps / seconds:,.0f} |")
    for count in (256, 512, 1024):
        seconds, _ = timed("world", calling(64, count), ["--threads", "w", "--rounds", "0"])
        print(f"| 64 modules of {count:,} declarations, no round | {seconds:.3f} | |")


if __name__ == "__main__":
    main()
