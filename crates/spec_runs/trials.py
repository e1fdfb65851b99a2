#!/usr/bin/env python3
"""Compares the machine of runs with another one, written apart from it.

usage: trials.py FOLDER [SEED [HOW_MANY]]

Makes random functions of all kinds of statements but those that only compute, runs them on random answers in a random number of
steps by the machine below, which is written with exceptions and lists that change, and writes a crate into FOLDER with a
contract for each run: that the machine of specs/judged/Machine.antt has the same events in the same order. A check of that crate
computes them. Its row in crates.txt, behind spec_runs:

    run_trials: ir_kinds ir_types ir_blocks ir_items spec_runs

Most of the functions would be refused, so all ways to leave a part arise. The crate is no part of the repository.
"""
import os
import random
import sys

# ---- the expressions that all functions have, by handle

EXPRESSIONS = [
    ("literal",), ("literal",), ("global", 0), ("not", 2), ("not", 3), ("global", 1), ("not", 5), ("literal",),
    ("argument", 0), ("argument", 1), ("zero",), ("sample", 8, 9), ("sample", 2, 5), ("not", 11),
]
COORDINATE = 10


def operands(e):
    kind, *rest = EXPRESSIONS[e]
    if kind == "not":
        return rest
    return [*rest, COORDINATE] if kind == "sample" else []


class Broken(Exception):
    pass


class Continued(Exception):
    pass


class Returned(Exception):
    def __init__(self, value):
        self.value = value


class Over(Exception):
    pass


# ---- what statements use and introduce

def introduced(s):
    if s[0] == "emit":
        return list(range(s[1], s[2]))
    if s[0] == "call":
        return [] if s[3] is None else [s[3]]
    return [s[2]] if s[0] == "uniform_load" else []


def condition_like(s):
    if s[0] in ("if", "switch"):
        return [s[1]]
    if s[0] == "return":
        return [] if s[1] is None else [s[1]]
    return list(s[2]) if s[0] == "call" else []


def all_operands(s):
    if s[0] == "loop":
        return [] if s[3] is None else [s[3]]
    if s[0] == "store":
        return [s[1], s[2]]
    return [s[1]] if s[0] == "uniform_load" else condition_like(s)


def checked(s):
    if s[0] == "store":
        return [s[2]]
    return [s[1]] if s[0] == "uniform_load" else condition_like(s)


# ---- the other machine

class Frame:
    def __init__(self, name, depth, arguments):
        self.name, self.depth, self.arguments = name, depth, arguments
        self.live, self.skipped, self.last = [], [], None

    def means(self, e):
        kind, *rest = EXPRESSIONS[e]
        if kind == "global":
            return rest[0]
        return self.arguments[rest[0]] if kind == "argument" and rest[0] < len(self.arguments) else None


class Machine:
    def __init__(self, functions, answers, steps):
        self.functions, self.answers, self.steps, self.events = functions, list(answers), steps, []

    def step(self):
        if self.steps == 0:
            raise Over
        self.steps -= 1

    def answer(self):
        if not self.answers:
            raise Over
        return self.answers.pop(0)

    def use(self, frame, handles):
        for o in handles:
            self.events.append(("used", frame.name, list(frame.live), list(frame.skipped), o))

    def mention(self, frame, e):
        kind, *rest = EXPRESSIONS[e]
        if kind == "global":
            self.events.append(("named", rest[0]))
        if kind == "sample":
            pair = [frame.means(x) for x in rest]
            if None not in pair:
                self.events.append(("sampled", *pair))
        for o in operands(e):
            self.mention(frame, o)

    def introduce(self, frame, handles):
        for e in handles:
            self.events.append(("introduced_expression", frame.name, e))
            self.mention(frame, e)
            frame.live.append(e)

    def block(self, frame, statements, path):
        for i, s in enumerate(statements):
            self.step()
            self.statement(frame, s, path + ["later"] * i)
            self.introduce(frame, introduced(s))

    def part(self, frame, statements, path):
        live, skipped = list(frame.live), list(frame.skipped)
        try:
            self.block(frame, statements, path)
        finally:
            frame.live, frame.skipped = live, skipped

    def statement(self, frame, s, path):
        frame.last = path + ["here"]
        self.events.append(("executed", frame.name, frame.last))
        for o in all_operands(s):
            self.mention(frame, o)
        self.use(frame, checked(s))
        getattr(self, "do_" + s[0])(frame, s, path)

    def do_emit(self, frame, s, path):
        pass

    do_store = do_uniform_load = do_emit

    def do_block(self, frame, s, path):
        self.part(frame, s[1], path + ["inner"])

    def do_if(self, frame, s, path):
        if self.answer() == 0:
            self.part(frame, s[3], path + ["rejecting"])
        else:
            self.part(frame, s[2], path + ["accepting"])

    def do_switch(self, frame, s, path):
        answer, cases = self.answer(), s[2]
        values = [value for value, _, _ in cases]
        at = values.index(answer) if answer in values else values.index("default") if "default" in values else len(cases)
        try:
            while at < len(cases):
                self.part(frame, cases[at][1], path + [("case_at", at)])
                at = at + 1 if cases[at][2] else len(cases)
        except Broken:
            pass

    def do_loop(self, frame, s, path):
        live, skipped = list(frame.live), list(frame.skipped)
        try:
            while self.turn(frame, s, path):
                frame.live, frame.skipped = list(live), list(skipped)
        except Broken:
            pass
        finally:
            frame.live, frame.skipped = live, skipped

    def turn(self, frame, s, path):
        """One turn; whether another one follows."""
        _, body, continuing, condition = s
        self.step()
        for i, t in enumerate(body):
            self.step()
            live, skipped = list(frame.live), list(frame.skipped)
            try:
                self.statement(frame, t, path + ["loop_body"] + ["later"] * i)
            except Continued:
                frame.live, frame.skipped = live, skipped + [e for left in body[i:] for e in introduced(left)]
                break
            self.introduce(frame, introduced(t))
        try:
            self.block(frame, continuing, path + ["loop_continuing"])
        except (Broken, Continued, Returned):
            self.escape()
        if condition is None:
            return True
        self.use(frame, [condition])
        return self.answer() == 0

    def do_break(self, frame, s, path):
        raise Broken

    def do_continue(self, frame, s, path):
        raise Continued

    def do_return(self, frame, s, path):
        raise Returned(s[1])

    def do_kill(self, frame, s, path):
        raise Over

    def do_call(self, frame, s, path):
        if s[1] >= len(self.functions):
            raise Over
        callee = self.functions[s[1]]
        self.events.append(("passed", frame.name, callee[0], list(s[2])))
        self.function(callee, frame.depth + 1, [frame.means(e) for e in s[2]])

    def escape(self):
        self.events.append(("escaped",))
        raise Over

    def function(self, function, depth, arguments):
        name, body = function
        frame = Frame(name, depth, arguments)
        self.events.append(("entered", depth))
        try:
            self.block(frame, body, [])
        except Returned as r:
            self.events.append(("returned", name, r.value))
        except (Broken, Continued):
            self.escape()
        else:
            self.events.append(("fell_off", name, frame.last))

    def run(self, function):
        try:
            self.function(function, 0, [])
        except Over:
            pass
        return self.events


# ---- random functions

def handle():
    return random.randrange(len(EXPRESSIONS))


def random_block(depth, loop, switch, most):
    return [random_statement(depth, loop, switch) for _ in range(random.randint(0 if depth < 3 else 1, most))]


def random_statement(depth, loop, switch):
    kinds = ["emit", "emit", "store", "uniform_load", "call"]
    if depth > 0:
        kinds += ["block", "if", "if", "switch", "switch", "loop", "loop"]
    if loop or switch:
        kinds += ["break"]
    if loop:
        kinds += ["continue", "continue"]
    if random.random() < 0.2:
        kinds += ["return", "return", "return", "kill", "break", "continue"]
    kind = random.choice(kinds)
    if kind == "emit":
        first = random.choice([2, 3, 4, 5, 11, 12, 13, 11, 12])
        return ("emit", first, min(len(EXPRESSIONS), first + random.randint(0, 2)))
    if kind in ("store", "uniform_load"):
        return (kind, handle(), handle())
    if kind == "block":
        return ("block", random_block(depth - 1, loop, switch, 3))
    if kind == "if":
        return ("if", handle(), random_block(depth - 1, loop, switch, 3), random_block(depth - 1, loop, switch, 2))
    if kind == "switch":
        values = random.sample([0, 1, 2, -1, "default"], random.randint(1, 3))
        return ("switch", handle(), [(v, random_block(depth - 1, loop, True, 2), random.random() < 0.4) for v in values])
    if kind == "loop":
        continuing = random_block(depth - 1, random.random() < 0.1, random.random() < 0.1, 2)
        return ("loop", random_block(depth - 1, True, True, 3), continuing, random.choice([None, handle(), handle()]))
    if kind == "return":
        return ("return", random.choice([None, handle()]))
    if kind == "call":
        arguments = [random.choice([2, 5, 8, 9, 2, 5, handle()]) for _ in range(random.choice([0, 1, 2, 2, 2]))]
        return ("call", random.choice([0, 0, 1, 5]), arguments, random.choice([None, handle()]))
    return (kind,)


# ---- how all this is written

def listed(texts):
    return "(" + " ∷ ".join(texts) + " ∷ [])" if texts else "[]"


def handles(es):
    return listed([str(e) for e in es])


def optional(e):
    return "None" if e is None else f"(Some {e})"


def integer(n):
    return f"(pos {n})" if n >= 0 else f"(negsuc {-n - 1})"


def block_text(statements):
    text = "stop"
    for s in reversed(statements):
        text = f"(next {statement_text(s)} {text})"
    return text


def cases_text(cases):
    text = "no_case"
    for value, body, falls in reversed(cases):
        word = "Default" if value == "default" else f"(I32 {integer(value)})" if value <= 0 else f"(U32 {value})"
        text = f"(case {word} {block_text(body)} {'true' if falls else 'false'} {text})"
    return text


def statement_text(s):
    kind = s[0]
    if kind == "emit":
        return f"(emit {s[1]} {s[2]})"
    if kind in ("store", "uniform_load"):
        return f"(operation ({kind} {s[1]} {s[2]}))"
    if kind == "block":
        return f"(block {block_text(s[1])})"
    if kind == "if":
        return f"(if_ {s[1]} {block_text(s[2])} {block_text(s[3])})"
    if kind == "switch":
        return f"(switch {s[1]} {cases_text(s[2])})"
    if kind == "loop":
        return f"(loop {block_text(s[1])} {block_text(s[2])} {optional(s[3])})"
    if kind == "return":
        return f"(return {optional(s[1])})"
    return f"(call {s[1]} {handles(s[2])} {optional(s[3])})" if kind == "call" else kind


def place_text(path):
    text = "here"
    for part in reversed(path[:-1]):
        text = f"(later {text})" if part == "later" else f"(inside {part if isinstance(part, str) else f'(case_at {part[1]})'} {text})"
    return text


def event_text(event):
    kind, *rest = event
    if kind == "executed":
        return f"executed {rest[0]} {place_text(rest[1])}"
    if kind == "used":
        return f"used {rest[0]} {handles(rest[1])} {handles(rest[2])} {rest[3]}"
    if kind == "passed":
        return f"passed {rest[0]} {rest[1]} {handles(rest[2])}"
    if kind == "returned":
        return f"returned {rest[0]} {optional(rest[1])}"
    if kind == "fell_off":
        return f"fell_off {rest[0]} {'None' if rest[1] is None else f'(Some {place_text(rest[1])})'}"
    return " ".join([kind, *map(str, rest)])


def expression_text(kind, *rest):
    return {
        "literal": "plain (x.Literal (Truth true))",
        "zero": "plain (x.ZeroValue 0)",
        "global": "plain (x.GlobalVariable {0})",
        "argument": "plain (x.FunctionArgument {0})",
        "not": "plain (x.Unary LogicalNot {0})",
        "sample": "plain (x.ImageSample {0} {1} None " + str(COORDINATE) + " None None Zero None false)",
    }[kind].format(*rest)


BODIES = """use Rattle.std.specs.Prelude.{ℕ, true, false, List, [], ◌∷◌, Some, None, pos, negsuc}
use Rattle.ir_kinds.specs.declared.operators.UnaryOperator.TheVariants.{LogicalNot}
use Rattle.ir_kinds.specs.declared.values.Literal.TheVariants.{Bool as Truth}
use Rattle.ir_kinds.specs.declared.values.SwitchValue.TheVariants.{I32, U32, Default}
use Rattle.ir_types.specs.judged.ExpressionPlain.{PlainExpression, plain}
use Rattle.ir_types.specs.declared.expressions.Expression.TheVariants as x
use Rattle.ir_types.specs.declared.expressions.SampleLevel.TheVariants.{Zero}
use Rattle.ir_blocks.specs.judged.Plain.{store, uniform_load, emit, block, if_, switch, loop, break, continue, return, kill, operation, call, PlainBlock, stop, next, no_case, case}
use Rattle.ir_items.specs.judged.Plain.{PlainFunction}
use Rattle.spec_runs.specs.found.Worked.{of_body}

abbrev pub these : List PlainExpression
these = """
SOURCE = """//! Runs of random functions, as another machine has them.
#![tactic(auto)]

ghost use Rattle.std.specs.Prelude.{◌≡◌, [], ◌∷◌, Some, None, pos, negsuc};
ghost use Rattle.ir_blocks.specs.judged.Places.{here, later, inside};
ghost use Rattle.ir_blocks.specs.judged.Shapes.{inner, accepting, rejecting, case_at, loop_body, loop_continuing};
ghost use Rattle.spec_runs.specs.judged.Events.{entered, executed, introduced_expression, named, sampled, used, passed, returned, fell_off, escaped};
ghost use Rattle.spec_runs.specs.judged.Machine.{trace_of};
ghost use Rattle.spec_runs.specs.judged.Scoping.{checked_operands};
ghost use Rattle.spec_runs.specs.found.Worked.{module_of};
"""


def wanted(number, events):
    """Of three functions in a row one is to use what is skipped, one to enter a case, and one to sample."""
    if not 7 <= len(events) <= 60:
        return False
    if number % 3 == 0:
        return any(x[0] == "used" and x[3] for x in events)
    if number % 3 == 1:
        return any(x[0] == "executed" and any(isinstance(y, tuple) for y in x[2]) for x in events)
    return any(x[0] == "sampled" for x in events)


def main():
    folder = sys.argv[1]
    random.seed(int(sys.argv[2]) if len(sys.argv) > 2 else 1)
    many = int(sys.argv[3]) if len(sys.argv) > 3 else 100
    functions, trials, counted, number = [], [], {}, 0
    while number < many:
        callees = [(f"{letter}{number}", random_block(1, False, False, 2)) for letter in "cd"]
        caller = (f"m{number}", [random_statement(3, False, False) for _ in range(random.randint(1, 3))])
        answers, steps = [random.choice([0, 0, 1, 1, 2, -1, 5]) for _ in range(random.randint(0, 6))], random.choice([4, 12, 18, 25])
        events = Machine(callees, answers, steps).run(caller)
        if not wanted(number, events):
            continue
        for event in events:
            counted[event[0]] = counted.get(event[0], 0) + 1
        functions += [*callees, caller]
        names = " ∷ ".join(name for name, _ in callees)
        trials.append(
            f"pub fn trial_{number}()\n    ensures {{ trace_of checked_operands (module_of ({names} ∷ [])) {caller[0]} {listed(list(map(integer, answers)))} {steps}"
            f" ≡ {' ∷ '.join(map(event_text, events))} ∷ [] }}\n{{}}\n")
        number += 1
    texts = {
        "specs/Lib.antt": "pub mod Bodies\n",
        "proofs/Lib.antt": "",
        "specs/Bodies.antt": BODIES + " ∷ ".join(expression_text(*e) for e in EXPRESSIONS) + " ∷ []\n\n"
        + "\n".join(f"abbrev pub {name} : PlainFunction\n{name} = of_body None these {block_text(body)}\n" for name, body in functions),
        "src/lib.rt": SOURCE + f"ghost use Rattle.run_trials.specs.Bodies.{{{', '.join(name for name, _ in functions)}}};\n\n" + "\n".join(trials),
    }
    for name, text in texts.items():
        os.makedirs(os.path.dirname(os.path.join(folder, name)), exist_ok=True)
        with open(os.path.join(folder, name), "w", encoding="utf-8") as out:
            out.write(text)
    print(f"{number} runs, {sum(counted.values())} events: {counted}")


main()
