#!/usr/bin/env python3
"""Works out what x86-TSO allows of each litmus shape, from the axioms of TSO, and compares that with the tables of the
tests (crates/cas_tso_tests/src/litmus_tests.rt). Compares the shapes with the objects in examples/litmus, too.

The axioms are over one order of all loads and stores in memory. A thread's order is kept in it but for a store and a
later load; a locked step keeps its place among all of its thread. A load has the value of the newest store to its word
among those that come before it in memory and those of its own thread that come before it in the thread. Nothing here
knows buffers. `litmus.py --write` writes the objects."""
import itertools
import pathlib
import re
import sys

ROOT = pathlib.Path(__file__).resolve().parent.parent
TESTS = ROOT / "crates/cas_tso_tests/src/litmus_tests.rt"
OBJECTS = ROOT / "examples/litmus"


def shapes():
    """The shapes of the tests: name, threads as pairs of name and lines, number of workers, allowed outcomes."""
    source = TESTS.read_text(encoding="utf-8")
    for text in re.findall(r"^const \w+: Shape = Shape \{\n(.*?)^\};", source, re.S | re.M):
        name = re.search(r'name: "([^"]*)"', text)[1]
        parts = re.search(r"threads: &\[(.*)\],\s*workers: (\d+),\s*allowed: &\[(.*)\],", text, re.S)
        threads = re.findall(r'\(\s*"(\w)",\s*"([^"]*)",?\s*\)', parts[1])
        allowed = [tuple(map(int, row.split(","))) for row in re.findall(r"&\[([\d, ]*)\]", parts[3])]
        yield name, [(of, code.split("; ")) for of, code in threads], int(parts[2]), allowed


def words():
    """The lines that declare the shapes' words."""
    return re.search(r'const WORDS: &str = "([^"]*)"', TESTS.read_text(encoding="utf-8"))[1].split("; ")


def object_text(threads):
    """The text of a shape's object."""
    lines = ["object 1", "lock L", *words()]
    for name, code in threads:
        lines += [f"function {name} void 1 int 0", *code, "end"]
    return "\n".join([*lines, "end object", ""])


def events_of(thread, code):
    """A thread's loads, stores and locked steps in order: thread, kind, word, value; and which loads it puts out."""
    events, shown, newest = [], [], None
    for line in code:
        if found := re.fullmatch(r"mov \[@(\w)\], (\d+)", line):
            events.append((thread, "store", found[1], int(found[2])))
        elif found := re.fullmatch(r"mov eax, \[@(\w)\]", line):
            newest = len(events)
            events.append((thread, "load", found[1], None))
        elif found := re.fullmatch(r"lockdec \[@(\w)\]", line):
            events.append((thread, "locked", found[1], None))
        elif line == "out eax":
            shown.append(newest)
        elif line != "ret":
            raise ValueError(line)
    return events, shown


def keeps_order(order, programs):
    """Whether this order of all events keeps each thread's, but for a store and a later load."""
    place = {event: at for at, event in enumerate(order)}
    for thread, (events, _) in enumerate(programs):
        for first, later in itertools.combinations(range(len(events)), 2):
            is_free = (events[first][1], events[later][1]) == ("store", "load")
            if not is_free and place[thread, first] > place[thread, later]:
                return False
    return True


def loaded(order, programs, thread, index):
    """What a load has."""
    word = programs[thread][0][index][2]
    here = order.index((thread, index))
    own = [(thread, at) for at in range(index)]
    value = 0
    for at, (by, number) in enumerate(order):
        event = programs[by][0][number]
        if event[1] == "store" and event[2] == word and (at < here or (by, number) in own):
            value = event[3]
    return value


def allowed_by_axioms(threads, workers):
    """All outcomes: what each thread puts out, in the order of threads; an observer's loads are of the end."""
    programs = [events_of(at, code) for at, (_, code) in enumerate(threads)]
    running = programs[:workers]
    every = [(at, index) for at, (events, _) in enumerate(running) for index in range(len(events))]
    outcomes = set()
    for order in itertools.permutations(every):
        if not keeps_order(order, running):
            continue
        whole = [*order, *((at, i) for at in range(workers, len(threads)) for i in range(len(programs[at][0])))]
        outcomes.add(
            tuple(loaded(whole, programs, at, index) for at, (_, shown) in enumerate(programs) for index in shown)
        )
    return sorted(outcomes)


def main(*words_given):
    faults = 0
    for name, threads, workers, allowed in shapes():
        found = allowed_by_axioms(threads, workers)
        path = OBJECTS / f"{name}.o"
        if words_given == ("--write",):
            OBJECTS.mkdir(exist_ok=True)
            path.write_text(object_text(threads), encoding="utf-8")
        is_same = path.exists() and path.read_text(encoding="utf-8") == object_text(threads)
        good = found == sorted(allowed) and is_same
        faults += not good
        shown = " ".join("".join(map(str, outcome)) for outcome in found)
        print(f"{name}: {shown}{'' if good else '  DIFFERS'}")
    print(f"{faults} differ")
    return 1 if faults else 0


if __name__ == "__main__":
    sys.exit(main(*sys.argv[1:]))
