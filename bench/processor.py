#!/usr/bin/env python3
"""Compares the tables of instructions in crates/cas_machine_tests with this processor, by bench/processor.c.

Flags after imul, shifts and divisions aren't compared, since it is this project's choice that they are all 0. It is skipped, with
status 0, where there is no C compiler or the processor isn't an x86-64."""
import pathlib
import platform
import re
import shutil
import subprocess
import sys
import tempfile

HERE = pathlib.Path(__file__).resolve().parent
TESTS = HERE.parent / "crates/cas_machine_tests/src/instructions_tests.rt"
EXTENSIONS = {"Sign8": "movsx8", "Sign16": "movsx16", "Zero8": "movzx8", "Zero16": "movzx16"}


def table(source, name):
    """The text of a table."""
    return re.search(r"const " + name + r":[^=]*= &\[(.*?)\n\];", source, re.S).group(1)


def numbers(text):
    return [int(word.replace("_", ""), 0) for word in re.findall(r"\b(?:0x[0-9a-f_]+|\d[\d_]*)\b", text)]


def quoted(row):
    """The text in a row's quotes."""
    return re.search(r'"([^"]*)"', row).group(1)


def parts(text):
    """The rows of a table: the parenthesised items of its outermost level."""
    depth, start, rows = 0, 0, []
    for place, char in enumerate(text):
        if char == "(":
            depth += 1
            if depth == 1:
                start = place + 1
        elif char == ")":
            depth -= 1
            if depth == 0:
                rows.append(text[start:place])
    return rows


def rows(source):
    for row in parts(table(source, "OPERATIONS")):
        name = re.search(r"Operation::(\w+)", row).group(1).lower()
        a, b, value = numbers(re.sub(r'"\w*"', "", row))
        flags = "*" if name == "imul" else quoted(row) or "-"
        yield f"{name} {a} {b} {value} {flags}"
    for row in parts(table(source, "SHIFTS")):
        name = re.search(r"ShiftKind::(\w+)", row).group(1).lower()
        a, count, value = numbers(row)
        yield f"{name} {a} {count} {value} *"
    for row in parts(table(source, "EXTENSIONS")):
        name = EXTENSIONS[re.search(r"Extension::(\w+)", row).group(1)]
        a, value = numbers(re.sub(r"Extension::\w+", "", row))
        yield f"{name} {a} 0 {value} *"
    for row in parts(table(source, "NEGATIONS")):
        a, value = numbers(re.sub(r'"\w*"', "", row))
        yield f"neg {a} 0 {value} {quoted(row) or '-'}"
    for name, of in (("div", "UNSIGNED_DIVISIONS"), ("idiv", "SIGNED_DIVISIONS")):
        for row in parts(table(source, of)):
            high, low, by, *result = numbers(row)
            yield f"{name} {high} {low} {by} {' '.join(map(str, result)) or 'fault'}"
    for row in parts(table(source, "COMPARISONS")):
        a, b = numbers(re.sub(r'"[^"]*"', "", row))
        yield f"cmp {a} {b} {quoted(row)}"


def main():
    compiler = shutil.which("cc") or shutil.which("gcc") or shutil.which("clang")
    if compiler is None or platform.machine() not in ("x86_64", "AMD64"):
        print("skipped: no C compiler, or no x86-64")
        return 0
    with tempfile.TemporaryDirectory() as folder:
        program = pathlib.Path(folder) / "processor"
        subprocess.run([compiler, "-O1", "-mno-red-zone", "-o", program, HERE / "processor.c"], check=True)
        text = "".join(row + "\n" for row in rows(TESTS.read_text()))
        return subprocess.run([program], input=text, text=True).returncode


if __name__ == "__main__":
    sys.exit(main())
