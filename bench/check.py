#!/usr/bin/env python3
"""How long the built program takes to check modules: to read them, type them, and see that shared globals are guarded.

Runs crates/cascc/out/cascc itself (build it by `bin/cascc`), best of five, on modules of up to 1,000 functions in the
shape of generated ones, and on modules that cost the check most. Needs python3.
"""
from read import generated, timed


def many_locks(count):
    """So many locks, each taken in a function that calls the one before, which holds all locks before its own."""
    lines = [f"lock L{i}; shared(L{i}) int g{i};" for i in range(count)]
    for i in range(count):
        held = ", ".join(f"L{j}" for j in range(i))
        holds = f" holds({held})" if held else ""
        call = f"f{i - 1}(); " if i > 0 else ""
        before = f"unlock(L{i - 1}); {call}lock(L{i - 1}); " if i > 0 else ""
        lines.append(f"void f{i}(void){holds} {{ {before}lock(L{i}); g{i} = {i}; unlock(L{i}); }}")
    return "\n".join(lines) + "\n"


def texts():
    for count in (125, 250, 500, 1000):
        yield f"{count:,} functions", [generated(count)]
    yield "64 modules of 100 functions", [generated(100)] * 64
    yield "200 locks, held by up to 200 functions", [many_locks(200)]


def main():
    print("| Modules | Bytes | Seconds, best of five | Answer |")
    print("|---|---|---|---|")
    for name, modules in texts():
        seconds, answer = timed("check", modules, [])
        print(f"| {name} | {sum(map(len, modules)):,} | {seconds:.3f} | {answer} |")


if __name__ == "__main__":
    main()
