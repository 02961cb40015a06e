"""Picture files given to our program and to the judge, and every byte of each answer compared."""
import os
import random
import struct
import sys
import time

import classes
import pictures
import programs

CHUNK = 2000
MOST_SHOWN = 20
LINES_SHOWN = 12


def compare_files(usage, variable, name, mode=(), change=None):
    """Runs the comparison that the command line asks for; `change` makes another file of each case's."""
    if len(sys.argv) not in (3, 4):
        sys.exit(usage)
    seed, count = int(sys.argv[1]), int(sys.argv[2])
    programs.make_judge(sys.argv[3] if len(sys.argv) == 4 else None)
    command = programs.ours(variable, name)
    started = time.monotonic()
    failed = 0
    for first in range(0, count, CHUNK):
        cases = list(classes.cases(seed, first, min(CHUNK, count - first)))
        if change is not None:
            cases = [(case, change(case, file)) for case, file in cases]
        for failure in failures(command, cases, mode):
            failed += 1
            keep(failure)
            if failed <= MOST_SHOWN:
                show(failure)
    seconds = time.monotonic() - started
    print(f"seed {seed}: {count} files in {seconds:.1f} seconds, {count / max(seconds, 0.001):.0f} a second")
    print(f"{count - failed} passed, {failed} failed")
    sys.exit(1 if failed else 0)


def enlarged(case, file):
    """The file with a size above that of `layout`, for two cases out of three."""
    rng = random.Random(f"size {case}")
    if len(file) < 4 or rng.randrange(3) == 0:
        return file
    return struct.pack("<HH", rng.choice((81, 100, 160, 199, 200)), rng.choice((25, 40, 99, 100))) + file[4:]


def failures(command, cases, mode):
    """(name, file, our answer, the Rust's answer) of each case whose answers are not the same bytes."""
    bundle = pictures.bundle(cases)
    ours, rust = programs.answers(command, bundle), programs.judged(bundle, *mode)
    if ours == rust:
        return []
    names = [name for name, _ in cases]
    pairs = zip(cases, programs.split(ours, names), programs.split(rust, names))
    found = [(name, file, our, its) for (name, file), our, its in pairs if our != its]
    # What stands outside every case is a failure too; it is shown with the chunk's first case.
    return found or [(*cases[0], ours[:400], rust[:400])]


def keep(failure):
    os.makedirs(programs.FAILED, exist_ok=True)
    with open(os.path.join(programs.FAILED, failure[0] + ".picture"), "wb") as file:
        file.write(failure[1])


def show(failure):
    name, file, ours, rust = failure
    print(f"failed: {name}, {len(file)} bytes: {file[:64].hex(' ')}{' ...' if len(file) > 64 else ''}")
    for who, answer in (("ours", ours), ("the Rust", rust)):
        lines = ["no answer"] if answer is None else answer.decode("utf-8", "replace").splitlines()
        print(f"  {who}:")
        print("".join(f"    {line}\n" for line in lines[:LINES_SHOWN]), end="")
        if len(lines) > LINES_SHOWN:
            print(f"    ... {len(lines)} lines")
    print("  first difference:", difference(ours or b"", rust or b""))


def difference(ours, rust):
    for number, (our, its) in enumerate(zip(ours.splitlines(), rust.splitlines()), 1):
        if our != its:
            return f"line {number}: ours {our.decode('utf-8', 'replace')!r}, the Rust {its.decode()!r}"
    return f"the lengths: ours {len(ours)} bytes, the Rust {len(rust)}"
