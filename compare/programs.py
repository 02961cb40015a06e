"""Where the comparison's programs are, and how they are run."""
import os
import shlex
import shutil
import subprocess
import sys
import time

HERE = os.path.dirname(os.path.abspath(__file__))
ROOT = os.path.dirname(HERE)
BUILD = os.path.join(ROOT, "target", "compare")
FAILED = os.path.join(BUILD, "failed")
JUDGE = os.path.join(BUILD, "judge")

CHUNK = 20000
MOST_SHOWN = 20


def make_judge(sources):
    """Builds the judge if it is missing or older than its parts, or if a folder of the Rust sources is given."""
    if sources is None and os.path.exists(JUDGE) and os.path.getmtime(JUDGE) >= newest_part():
        return
    if subprocess.run([os.path.join(HERE, "build"), *([] if sources is None else [sources])]).returncode:
        sys.exit("The judge could not be built.")


def newest_part():
    folders = (os.path.join(HERE, "judge"), os.path.join(HERE, "standins"))
    return max(os.path.getmtime(os.path.join(folder, name)) for folder in folders for name in os.listdir(folder))


def ours(variable, name):
    """Our program's command line: the environment variable's words, or the repository's own build."""
    command = shlex.split(os.environ.get(variable, "")) or [os.path.join(ROOT, "target", "bin", name)]
    if shutil.which(command[0]) is None:
        sys.exit(f"{command[0]} is not there: build it, or name another in the environment variable {variable}.")
    return command


def answers(command, given):
    """What a program prints for an input; a status other than 0 is added, so that the last case fails by it."""
    ran = subprocess.run(command, input=given, stdout=subprocess.PIPE)
    return ran.stdout + (b"ended with status %d\n" % ran.returncode if ran.returncode else b"")


def judged(given, *mode):
    """What the judge prints; without it there is nothing to compare with."""
    return subprocess.run([JUDGE, *mode], input=given, stdout=subprocess.PIPE, check=True).stdout


def split(printed, names):
    """The answer to each case, without its `case` line; None where the line is missing."""
    places = []
    at = 0
    for name in names:
        head = b"case " + name.encode() + b"\n"
        found = at if printed.startswith(head, at) else printed.find(b"\n" + head, at) + 1
        present = printed.startswith(head, found)
        places.append((found, found + len(head)) if present else None)
        at = found + len(head) if present else at
    starts = [place[0] for place in places if place] + [len(printed)]
    ends = iter(starts[1:])
    return [printed[place[1] : next(ends)] if place else None for place in places]


def compare_lines(usage, variable, name, mode, make, form):
    """Asks our program and the judge the same questions, and compares the line that each prints for one."""
    if len(sys.argv) not in (3, 4):
        sys.exit(usage)
    seed, count = int(sys.argv[1]), int(sys.argv[2])
    make_judge(sys.argv[3] if len(sys.argv) == 4 else None)
    command = ours(variable, name)
    started = time.monotonic()
    failed = 0
    for first in range(0, count, CHUNK):
        questions = list(make(seed, first, min(CHUNK, count - first)))
        for number, our, its in different_lines(command, mode, questions):
            failed += 1
            if failed <= MOST_SHOWN:
                asked = form.unpack(questions[number]) if number < len(questions) else "none asked"
                print(f"failed: question {first + number} of seed {seed}: {asked}\n  ours {our}\n  the judge {its}")
    seconds = time.monotonic() - started
    print(f"seed {seed}: {count} questions in {seconds:.1f} seconds, {count / max(seconds, 0.001):.0f} a second")
    print(f"{count - failed} passed, {failed} failed")
    sys.exit(1 if failed else 0)


def different_lines(command, mode, questions):
    """(number, our line, the judge's line) of each question whose answers differ."""
    given = b"".join(questions)
    our, its = answers(command, given), judged(given, mode)
    if our == its:
        return []
    our_lines, its_lines = our.split(b"\n"), its.split(b"\n")
    # A missing line fails its question, and lines after the last answer fail too.
    longest = max(len(our_lines), len(its_lines))
    our_lines += [b"no answer"] * (longest - len(our_lines))
    its_lines += [b"no answer"] * (longest - len(its_lines))
    pairs = enumerate(zip(our_lines, its_lines))
    return [(number, a.decode("utf-8", "replace"), b.decode()) for number, (a, b) in pairs if a != b]
