"""Call lists given to our program, to tools/model and to the judge, and every line of each answer compared."""
import os
import random
import sys
import time
from collections import Counter
from importlib.machinery import SourceFileLoader
from importlib.util import module_from_spec, spec_from_loader

import programs

MOST_SHOWN = 20


def load_lists():
    """tools/lists as a module."""
    loader = SourceFileLoader("lists", os.path.join(programs.ROOT, "tools", "lists"))
    module = module_from_spec(spec_from_loader("lists", loader))
    loader.exec_module(module)
    return module


lists = load_lists()
model = lists.model

CELLS_STEP = (lists.CELLS_SHOWN, 1)
DRAWS = (*lists.SHAPES, lists.POINTS, lists.DOT)
# Steps that say nothing of the canvas or the stores, so that they may stand anywhere.
ALWAYS = (lists.LENGTHS, lists.OPEN, lists.EMPTY, lists.ADD, lists.CELLS_SHOWN)


def compare_lists(usage):
    """Runs the comparison that the command line asks for."""
    if len(sys.argv) not in (3, 4):
        sys.exit(usage)
    seed, count = int(sys.argv[1]), int(sys.argv[2])
    programs.make_judge(sys.argv[3] if len(sys.argv) == 4 else None)
    comparison = Comparison(programs.ours("CALLS", "test_calls"), seed)
    started = time.monotonic()
    for cases in streams(Case(seed, number) for number in range(count)):
        comparison.take(cases)
    comparison.report(count, time.monotonic() - started)
    sys.exit(1 if comparison.failed else 0)


# Steps are 64 bytes; a part is a list of them, a stream a list of parts.


def op_of(step):
    return step[0]


def k_of(step):
    return int.from_bytes(step[12:16], "little")


def word_of(step, place, size):
    return int.from_bytes(step[16 + 8 * place : 16 + 8 * place + size], "little")


def is_set(step):
    """Whether the step sets a field of the canvas."""
    return op_of(step) == lists.FIELD and step[1] < len(model.FIELDS)


def is_fill(step):
    return op_of(step) == lists.LENGTHS and step[1] == 1


def screen_of(step):
    """How many cells a render's screen has."""
    return word_of(step, 0, 2) * word_of(step, 1, 2)


def digest_step(cells):
    return model.step_bytes(lists.CELLS_SHOWN, k=cells)


def streams(cases):
    """The cases in their order, as streams of at most so many steps as the program reads."""
    stream, steps = [], 0
    for case in cases:
        if steps + len(case.steps) > model.STEPS:
            yield stream
            stream, steps = [], 0
        stream.append(case)
        steps += len(case.steps)
    if stream:
        yield stream


def printed(run, parts):
    """For each part of a stream what a program prints, a tuple of lines for each step. Lines after the last step are
    added to it, and a missing line is 'nothing', so that each shows."""
    text = run(b"".join(step for part in parts for step in part)).decode("ascii", "replace")
    lines = text.split("\n")
    lines.pop() if lines[-1] == "" else None
    answers, at = [], 0
    for part in parts:
        answers.append([])
        for step in part:
            count = min(k_of(step), model.SCREEN) if (op_of(step), step[1]) == CELLS_STEP else 1
            found = lines[at : at + count]
            answers[-1].append(tuple(found + ["nothing"] * (count - len(found))))
            at += count
    if at < len(lines):
        answers[-1][-1] += tuple(lines[at:])
    return answers


def printed_in_streams(run, parts):
    """The same for any number of parts."""
    answers = []
    for stream in streams(map(Part, parts)):
        answers += printed(run, [part.steps for part in stream])
    return answers


def first_line(lines):
    """A step's first line; one that shows no cells has none."""
    return lines[0] if lines else ""


class Part:
    """Steps that are not a list of their own."""

    def __init__(self, steps):
        self.steps = steps


class Case:
    """A list with the digests after it, and what our program prints for it."""

    def __init__(self, seed, number):
        self.name = f"list-{seed}-{number}"
        data = bytes(lists.RandomList(seed, number).data())
        self.steps = [data[at : at + 64] for at in range(0, len(data), 64)]
        self.length = len(self.steps)
        screens = [screen_of(step) for step in self.steps if op_of(step) == lists.RENDER]
        cells = max((cells for cells in screens if cells <= model.SCREEN), default=0)
        self.steps += [digest_step(cells), model.step_bytes(lists.STORES)]
        self.answers, self.fault = [], None

    def fail(self, fault):
        """The first fault is the one that is shown."""
        self.fault = self.fault or fault

    def refused(self, place):
        """Whether a call was refused; an opening is no call on a canvas."""
        return op_of(self.steps[place]) != lists.OPEN and first_line(self.answers[place])[2:].startswith(" refused ")

    def opened(self, place):
        return op_of(self.steps[place]) == lists.OPEN and self.answers[place] == ("02 done",)

    def rendered(self, place):
        return op_of(self.steps[place]) == lists.RENDER and self.answers[place][0].startswith("0E rendered ")


class Comparison:
    """The checks of each stream, and what they met."""

    def __init__(self, command, seed):
        self.seed, self.met, self.failed = seed, Counter(), 0
        self.ours = lambda data: programs.answers(command, data)
        self.rust = lambda data: programs.judged(data, "--calls")

    def take(self, cases):
        for case, answers in zip(cases, printed(self.ours, [case.steps for case in cases])):
            case.answers = answers
        self.check_model(cases)
        self.check_rust(cases)
        self.check_shorter(cases)
        self.check_order(cases)
        for case in cases:
            self.met["steps"] += case.length
            if case.fault:
                self.keep(case)

    def keep(self, case):
        self.failed += 1
        os.makedirs(programs.FAILED, exist_ok=True)
        with open(os.path.join(programs.FAILED, case.name + ".calls"), "wb") as file:
            file.write(b"".join(case.steps[: case.length]))
        if self.failed <= MOST_SHOWN:
            print(f"failed: {case.name}, {case.length} steps: {case.fault}")

    def report(self, count, seconds):
        met = self.met
        rate = count / max(seconds, 0.001)
        print(f"seed {self.seed}: {count} lists, {met['steps']} steps in {seconds:.0f} seconds, {rate:.0f} lists a second")
        print(f"the model: {met['lines']} lines, untold {met['untold']} and {met['stores']} digests of stores")
        asked = f"{met['renders']} renders, {met['draws']} draws, {met['points']} questions for get_point"
        told = f"{met['told']} lines, untold {met['label cells']} numbers of label cells"
        print(f"the Rust: {met['rust']} lists with {asked}; {told}")
        print(f"without refused calls: {met['shorter']} lists; {met['dropped']} calls dropped in all lists")
        print(f"in another order: {met['order']} lists with {met['stretches']} stretches")
        print(f"{count - self.failed} passed, {self.failed} failed")

    # The model.

    def check_model(self, cases):
        calls = model.Calls()
        for case in cases:
            for place, step in enumerate(model.steps_of(b"".join(case.steps))):
                wanted = tuple(calls.lines(step))
                untold = sum(model.UNTOLD in line for line in wanted)
                self.met["lines"] += len(wanted)
                self.met["stores" if step.op == lists.STORES else "untold"] += untold
                differ(case, place, case.answers[place], wanted, "the model")

    # The Rust.

    def check_rust(self, cases):
        parts = [told_steps(case.steps) for case in cases]
        steps = [[step for _, step in part] for part in parts]
        ours, rust = printed_in_streams(self.ours, steps), printed_in_streams(self.rust, steps)
        for case, part, our, its in zip(cases, parts, ours, rust):
            renders = 0
            for (place, step), found, wanted in zip(part, our, its):
                differ(case, place, found, wanted, "the Rust")
                if op_of(step) != lists.CELLS_SHOWN:
                    differ(case, place, found, case.answers[place], "in the list")
                line = first_line(wanted)
                renders += line.startswith("0E rendered ")
                self.met["draws"] += line[2:].startswith(" painted ")
                self.met["points"] += op_of(step) == lists.GET_POINT
                self.met["label cells"] += line.endswith(" labels ?")
                self.met["told"] += len(wanted)
            self.met["renders"] += renders
            self.met["rust"] += renders > 0

    # Without refused calls.

    def check_shorter(self, cases):
        kept = [[place for place in range(len(case.steps)) if not case.refused(place)] for case in cases]
        parts = [[case.steps[place] for place in places] for case, places in zip(cases, kept)]
        for case, places, answers in zip(cases, kept, printed(self.ours, parts)):
            for place, found in zip(places, answers):
                differ(case, place, found, case.answers[place], "with the refused calls")
            self.met["dropped"] += len(case.steps) - len(places)
            self.met["shorter"] += drops_in_picture(case)

    # Another order.

    def check_order(self, cases):
        pictures = [picture for case in cases for picture in pictures_of(case)]
        chosen = []
        for picture in pictures:
            stretches = picture.reorder(random.Random(f"order {self.seed} {picture.case.name} {picture.place}"))
            self.met["stretches"] += stretches
            if stretches:
                chosen.append(picture)
        self.met["order"] += len({picture.case.name for picture in chosen})
        first = printed_in_streams(self.ours, [picture.steps(picture.calls) for picture in chosen])
        second = printed_in_streams(self.ours, [picture.steps(picture.other) for picture in chosen])
        for picture, answers, others in zip(chosen, first, second):
            picture.check(answers, others)


def differ(case, place, found, wanted, whose):
    """Fails the case where a line of a step is not the wanted one; `?` agrees with all."""
    if found == wanted:
        return
    for line, want in zip(found, wanted):
        if not lists.agrees(line, want):
            return case.fail(f"step {place}: ours {line}, {whose} {want}")
    if len(found) != len(wanted):
        case.fail(f"step {place}: {len(found)} lines, {whose} {len(wanted)}")


def told_steps(steps):
    """The steps that the Rust can be asked, each with its place in the list; the screen's digest after each render."""
    kept, told = [], False
    for place, step in enumerate(steps):
        op = op_of(step)
        if op == lists.OPEN:
            told = True
        elif is_set(step) or is_fill(step):
            told = False
        if op in ALWAYS or told and op in lists.NAMES and op != lists.STORES or op not in lists.NAMES:
            kept.append((place, step))
        if told and op == lists.RENDER and screen_of(step) <= model.SCREEN:
            kept.append((place, digest_step(screen_of(step))))
    return kept


def drops_in_picture(case):
    """Whether a call between an accepted opening and its first accepted render is refused."""
    open_now, found = False, False
    for place in range(case.length):
        if op_of(case.steps[place]) == lists.OPEN:
            open_now, found = case.opened(place), False
        elif case.rendered(place):
            if open_now and found:
                return True
            open_now = False
        else:
            found = found or case.refused(place)
    return False


# Pictures: the accepted calls from an opening to its first render, with no field set and no store filled between them.


class Call:
    """An accepted call: its steps, the bytes of the scratch before it where it reads them, and its line."""

    def __init__(self, step, scratch, line):
        self.op, self.step, self.line = op_of(step), step, line
        if self.op == lists.POINTS:
            scratch = scratch[: 16 * min(k_of(step), len(scratch) // 16)]
        elif self.op == lists.PRINT:
            scratch = scratch[: k_of(step)]
        else:
            scratch = None
        self.before = [] if scratch is None else scratch_steps(scratch)

    def steps(self):
        return [*self.before, self.step]

    def coloured(self, colour):
        self.step = self.step[:4] + colour + self.step[8:]


def scratch_steps(data):
    """The steps that make these bytes the scratch."""
    steps = model.scratch_steps(data)
    return [steps[at : at + 64] for at in range(0, len(steps), 64)]


class Picture:
    """The calls of a picture, and the same in another order."""

    def __init__(self, case, place, opening):
        self.case, self.place, self.opening, self.render = case, place, opening, None
        self.calls, self.other = [], []

    def reorder(self, chance):
        """Colours each stretch and puts its calls in another order; how many stretches that changed."""
        changed, stretch, self.other = 0, [], []
        for call in [*self.calls, None]:
            if call is not None and call.op not in (lists.LAYER, lists.MARKER):
                stretch.append(call)
                continue
            draws = [call for call in stretch if call.op in DRAWS]
            for draw in draws:
                draw.coloured(draws[0].step[4:8])
            other = shuffled(stretch, chance)
            changed += [draw.steps() for draw in draws] != [draw.steps() for draw in other if draw.op in DRAWS]
            self.other += other + [call] * (call is not None)
            stretch = []
        return changed

    def steps(self, calls):
        """Whole stores and a screen of the render's size, the opening, the calls, the render and the screen's digest."""
        cells = screen_of(self.render)
        lent = model.step_bytes(lists.LENGTHS, w=(model.CELLS, model.LABELS, model.ROWS, cells))
        drawn = [step for call in calls for step in call.steps()]
        return [lent, self.opening, *drawn, self.render, digest_step(cells)]

    def check(self, answers, others):
        """What the calls print in each order: the same as in the list, and the same screen."""
        for calls, lines in ((self.calls, answers), (self.other, others)):
            at = 2
            for call in calls:
                at += len(call.before)
                differ(self.case, self.place, lines[at], (call.line,), "in the list")
                at += 1
        for found, wanted in zip(others[-2:], answers[-2:]):
            differ(self.case, self.place, found, wanted, "in the first order")


def shuffled(calls, chance):
    """The calls in any order, but for prints, which keep theirs among themselves."""
    places = list(range(len(calls)))
    chance.shuffle(places)
    prints = iter([call for call in calls if call.op == lists.PRINT])
    return [next(prints) if calls[place].op == lists.PRINT else calls[place] for place in places]


def pictures_of(case):
    """The pictures of a list."""
    picture, scratch = None, b""
    for place in range(case.length):
        step, op = case.steps[place], op_of(case.steps[place])
        if op == lists.EMPTY:
            scratch = b""
        elif op == lists.ADD:
            scratch = (scratch + step[8 : 8 + min(step[1], 56)])[: model.SCRATCH]
        elif op == lists.OPEN:
            picture = Picture(case, place, step) if case.opened(place) else None
        elif is_set(step) or is_fill(step):
            picture = None
        elif picture and case.rendered(place):
            picture.render = step
            yield picture
            picture = None
        elif picture and op in lists.REFUSALS and op != lists.GET_POINT and not case.refused(place):
            picture.calls.append(Call(step, scratch, case.answers[place][0]))
