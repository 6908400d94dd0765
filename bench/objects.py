#!/usr/bin/env python3
"""What objects texts take to be read, printed and linked, in processor time and memory: a table on standard output.

Runs crates/cas_object_bench/out/cas_object_bench itself (build it by `rt run` in that folder), best of five, on texts
that this script makes. Needs python3.
"""
import os
import subprocess
import sys
import tempfile

PROGRAM = os.path.join(os.path.dirname(__file__), "..", "crates", "cas_object_bench", "out", "cas_object_bench")
LIMIT = 16777216
# The instructions of an image, without the lock object's eight.
INSTRUCTIONS = 4194304 - 8

# Lines as a compiler prints them: a loop that sums an array under a lock.
BODY = """push ebx
push esi
sub esp, 40
mov ebx, 0
jmp .{0}
.{1}
lea ecx, [esp+8]
mov [ecx+ebx*4], 123
add ebx, 1
.{0}
cmp ebx, 8
jl .{1}
mov esi, [esp+8]
imul esi, 3
lea eax, [@L]
call lock
mov ecx, [@total]
add ecx, esi
mov [@total], ecx
lea eax, [@L]
call unlock
mov eax, [@t+ebx*4-32]
add esp, 40
pop esi
pop ebx
ret
"""
HEAD = "object 1\nlock L\nshared total int L 0\nconst t int[8] 1 2 3 4 5 6 7 8\n"


def text(head, name, lines, size):
    """An object with one function, its lines again and again up to this size."""
    front, behind = f"{head}function {name} void 1 int 0\n", "end\nend object\n"
    parts, length, turn = [], len(front) + len(behind), 0
    while True:
        part = lines.format(2 * turn, 2 * turn + 1)
        if length + len(part) > size:
            return front + "".join(parts) + behind
        parts.append(part)
        length += len(part)
        turn += 1


def many(head, lines, size):
    """An object with functions of one body each, as many as it may have, again in further objects up to this size."""
    parts, length, turn = [], 0, 0
    while True:
        unit = f"object 1\n{head}" if turn == 0 else "object 1\n"
        for _ in range(1024):
            unit += f"function f{turn} void 1 int 0\n{lines.format(0, 1)}end\n"
            turn += 1
        unit += "end object\n"
        if length + len(unit) > size:
            return "".join(parts)
        parts.append(unit)
        length += len(unit)


def measure(words, wanted):
    """Processor seconds and peak memory in bytes of one run of the program with these words.

    A process of its own starts the program: memory that this one has would count as the program's.
    """
    with tempfile.TemporaryFile() as printed:
        command = [sys.executable, __file__, "--one", *words]
        told = subprocess.run(command, stdout=printed, stderr=subprocess.PIPE, check=False)
        printed.seek(0)
        out = printed.read()
    if told.returncode != 0 or out != wanted:
        sys.exit(f"{' '.join(words)}: status {told.returncode}, {len(out)} bytes of output")
    seconds, peak = told.stderr.split()
    return float(seconds), int(peak)


def run_one(words):
    """Runs the program, and says on standard error what it took."""
    child = subprocess.Popen([PROGRAM, *words])
    _, status, usage = os.wait4(child.pid, 0)
    child.returncode = os.waitstatus_to_exitcode(status)
    print(usage.ru_utime + usage.ru_stime, usage.ru_maxrss * 1024, file=sys.stderr)
    return child.returncode


def row(what, words, size, wanted):
    runs = [measure(words, wanted) for _ in range(5)]
    seconds = min(run[0] for run in runs)
    peak = max(run[1] for run in runs)
    print(f"| {what} | {size:,} | {seconds:.3f} | {peak / size:.1f} |")


def main():
    if not os.path.exists(PROGRAM):
        sys.exit("build the program first: rt run in crates/cas_object_bench")
    head = HEAD[len("object 1\n"):]
    texts = [
        ("lines as a compiler prints them, one function", text(HEAD, "w", BODY, LIMIT)),
        ("the same, functions of 24 instructions", many(head, BODY, LIMIT)),
        ("the shortest instructions", text("object 1\n", "w", "ret\n", LIMIT)),
        ("labels alone", text("object 1\n", "w", ".{0}\n.{1}\n", LIMIT)),
        ("values", "object 1\n" + f"const t int[65536]{' 7' * 65536}\nend object\nobject 1\n" * 120 + "end object\n"),
    ]
    print("| Text | Bytes | Processor seconds, best of five | Peak bytes a byte of text |")
    print("|---|---|---|---|")
    with tempfile.TemporaryDirectory() as folder:
        for number, (what, content) in enumerate(texts):
            name = os.path.join(folder, f"t{number}.o")
            with open(name, "w", encoding="ascii") as file:
                file.write(content)
            row(f"reading {what}", ["read", name], len(content), b"")
            row(f"printing {what}", ["print", name], len(content), content.encode())
        half = INSTRUCTIONS // 2
        names = []
        for function, count in (("f", half), ("g", INSTRUCTIONS - half)):
            names.append(os.path.join(folder, f"{function}.o"))
            with open(names[-1], "w", encoding="ascii") as file:
                file.write(f"object 1\nfunction {function} void 1 int 0\n" + "ret\n" * count + "end\nend object\n")
        size = sum(os.path.getsize(name) for name in names)
        row("linking 4,194,304 instructions", ["link", *names], size, b"4194304\n")


if sys.argv[1:2] == ["--one"]:
    sys.exit(run_one(sys.argv[2:]))
main()
