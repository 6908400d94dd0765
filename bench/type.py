#!/usr/bin/env python3
"""How long the built program takes to read and type a module, beside `gcc -fsyntax-only` on the same module in C.

Runs crates/cascc/out/cascc itself (build it by `bin/cascc`), best of five, on modules of up to 1,000 functions in the
shape of generated ones, and on texts that cost the typer most. Needs python3, and gcc for its column.
"""
import shutil
import subprocess
import sys
import tempfile
import time

from read import best_of_five, generated


def as_c(text):
    """The module with locks, guards and output as C's: what gcc is given to look at."""
    head = "typedef int lock_word;\nvoid take(lock_word *);\nvoid give(lock_word *);\nvoid print(int);\n"
    for ours, theirs in (
        ("unlock(L)", "give(&L)"),
        ("shared(L) int", "int"),
        ("lock L;", "lock_word L;"),
        ("lock(L)", "take(&L)"),
    ):
        text = text.replace(ours, theirs)
    return head + text


def many_locals(count):
    """A function that declares so many locals in one block, each the sum of the first and the one before."""
    declared = "".join(f"int a{i} = a0 + a{i - 1}; " for i in range(1, count))
    return f"void w(int me) {{ int a0 = me; {declared}}}\n"


def many_globals(count):
    """So many tables, and a function that reads each."""
    tables = "".join(f"const int t{i} = {i};\n" for i in range(count))
    reads = "".join(f"me += t{i}; " for i in range(count))
    return f"{tables}void w(int me) {{ {reads}}}\n"


def deep(depth, count):
    """So many locals, each declared at this depth of blocks that hide one another's names."""
    blocks = "{ int a = me; " * depth + "}" * depth
    return "void w(int me) { " + blocks * count + "}\n"


def texts():
    for count in (125, 250, 500, 1000):
        yield f"{count:,} functions", generated(count), True
    yield "4,000 locals in one block", many_locals(4000), False
    yield "10,000 tables, each read", many_globals(10000), False
    yield "20 times 199 blocks with a local each", deep(199, 20), False


def syntax_only(text):
    """The least seconds of five runs of gcc that look at a text alone; nothing where there is no gcc."""
    if not shutil.which("gcc"):
        return ""
    with tempfile.NamedTemporaryFile("w", suffix=".c") as file:
        file.write(text)
        file.flush()
        spent = []
        for _ in range(5):
            begin = time.perf_counter()
            done = subprocess.run(["gcc", "-fsyntax-only", file.name], capture_output=True)
            spent.append(time.perf_counter() - begin)
            if done.returncode != 0:
                sys.exit(f"gcc: {done.stderr.decode()}")
    return f"{min(spent):.3f}"


def main():
    print("| Module | Bytes | Seconds, best of five | `gcc -fsyntax-only` | Answer |")
    print("|---|---|---|---|---|")
    for name, text, in_c in texts():
        seconds, _, answer = best_of_five(text)
        beside = syntax_only(as_c(text)) if in_c else ""
        print(f"| {name} | {len(text):,} | {seconds:.3f} | {beside} | {answer} |")


if __name__ == "__main__":
    main()
