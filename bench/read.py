#!/usr/bin/env python3
"""How long the built program takes to read a module, and how much memory: a table on standard output.

Runs crates/cascc/out/cascc itself (build it by `bin/cascc`), best of five, on modules that this script makes: in the
shape of generated ones (functions that fill and sum an array), and texts that cost the reader most. Needs python3.
"""
import os
import subprocess
import sys
import tempfile
import time

PROGRAM = os.path.join(os.path.dirname(__file__), "..", "crates", "cascc", "out", "cascc")
LIMIT = 1048576


def generated(functions):
    """`functions` functions, each of which adds an array's sum to a shared total, and one thread that calls them."""
    lines = ["lock L;", "shared(L) int total = 0;"]
    for i in range(functions):
        c = (31 * 7 + 17 * i) % 1000
        lines.append(
            f"void f{i}(void) {{ int j; int s; int a[8]; for (j = 0; j < 8; j++) {{ a[j] = {c} + j; }} s = 0; "
            "for (j = 0; j < 8; j++) { s += a[j] * (j + 1); } lock(L); total += s; unlock(L); }"
        )
    calls = "".join(f"f{i}(); " for i in range(functions))
    lines.append(f"void w(int me) {{ {calls}lock(L); print(total); unlock(L); }}")
    return "\n".join(lines) + "\n"


def largest_generated():
    functions = 1
    while len(generated(functions * 2)) <= LIMIT:
        functions *= 2
    step = functions
    while step > 0:
        if len(generated(functions + step)) <= LIMIT:
            functions += step
        step //= 2
    return functions


def in_body(unit):
    """A function whose body is this text again and again, up to the limit."""
    front, behind = "void w(int me){", "}"
    return front + unit * ((LIMIT - len(front) - len(behind)) // len(unit)) + behind


def texts():
    most = largest_generated()
    for share in (8, 4, 2, 1):
        yield f"{most // share} functions", generated(most // share)
    yield "empty statements", in_body(";")
    yield "assignments of one letter", in_body("a=b;")
    yield "expressions of 1,000 tokens", in_body("a=" + "~" * 998 + "b;")
    yield "blocks 199 deep", in_body("{" * 199 + "}" * 199)
    yield "prototypes", "int f(int,int,int);" * (LIMIT // 19)
    yield "spaces", " " * LIMIT


def measure(words, statuses):
    """Seconds, peak memory in bytes, what was printed and what was said, of one run of the program with these words."""
    with tempfile.TemporaryFile("w+") as printed, tempfile.TemporaryFile("w+") as told:
        begin = time.perf_counter()
        child = subprocess.Popen([PROGRAM, *words], stdout=printed, stderr=told)
        _, status, usage = os.wait4(child.pid, 0)
        seconds = time.perf_counter() - begin
        child.returncode = os.waitstatus_to_exitcode(status)
        for stream in (printed, told):
            stream.seek(0)
        out, said = printed.read(), told.read()
    if child.returncode not in statuses:
        sys.exit(f"{' '.join(words)}: status {child.returncode}: {said}")
    return seconds, usage.ru_maxrss * 1024, out, said.strip()


def five_runs(command, modules, options, statuses):
    """Five runs of a command on module texts, with these options behind their names."""
    if not os.path.exists(PROGRAM):
        sys.exit("build the program first: bin/cascc run examples/hello.c --lock examples/lock.s --threads w")
    with tempfile.TemporaryDirectory() as folder:
        names = []
        for number, text in enumerate(modules):
            names.append(os.path.join(folder, f"m{number}.c"))
            with open(names[-1], "w") as file:
                file.write(text)
        return [measure([command, *names, *options], statuses) for _ in range(5)]


def timed(command, modules, options):
    """The least seconds of five runs of a command, and the last line that it printed, without the modules' folder."""
    runs = five_runs(command, modules, options, (0,))
    return min(run[0] for run in runs), runs[0][2].rstrip().rsplit("\n", 1)[-1].rsplit("/", 1)[-1]


def best_of_five(text):
    """The least seconds of five runs on a module text, their greatest peak of memory in bytes, and the answer."""
    with tempfile.NamedTemporaryFile("w", suffix=".s") as lock:
        runs = five_runs("run", [text], ["--lock", lock.name, "--threads", "w"], (0, 1))
    return min(run[0] for run in runs), max(run[1] for run in runs), runs[0][3].rsplit(": ", 1)[-1]


def main():
    print("| Text | Bytes | Seconds, best of five | Peak bytes a byte of text | Answer |")
    print("|---|---|---|---|---|")
    for name, text in texts():
        seconds, memory, answer = best_of_five(text)
        print(f"| {name} | {len(text):,} | {seconds:.3f} | {memory / len(text):.0f} | {answer} |")


if __name__ == "__main__":
    main()
