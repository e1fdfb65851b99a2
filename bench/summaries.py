#!/usr/bin/env python3
"""Measures how long it takes to find what is kept of all functions of large documents, beside reading the same bytes as JSON
and no more: summaries.py [--instructions]

`test_typing` is run twice on each document: once it asks whether the handles of all functions are in order, and once it
finds besides what is kept of each function. What this takes is the difference, of the least times of five runs, which take
turns. With --instructions the instructions of one run each are counted instead (valgrind's callgrind), on documents of 256
KiB and 1 MiB, since that takes fifty times as long. Prints a table in Markdown. Both programs have to be built: `rt ci`
leaves them, and so does `rt run` in crates/test_typing and crates/test_calls. The status is 1 where a target is missed.
"""
import sys
import tempfile

from layouts import CASES, instructions, times
from run import MEASURES, SIZES, TOP

MOST_SHARE = 1 / 3
FRONT = ('[1,["CONTROL_FLOW_UNIFORMITY"],[],[[],[]],false,[[null,["Scalar","f32"]],[null,["Vector",2,"f32"]],'
         '[null,["Image","D2",false,["Sampled","Float",false]]],[null,["Sampler",false]],'
         '[null,["Array",0,["Dynamic"],4]]],[null,null,null,[]],[[],null],[],[],[],['
         '[null,"Handle",[0,0],2,null,[]],[null,"Handle",[0,1],2,null,[]],[null,"Handle",[0,2],3,null,[]],'
         '[null,["Storage",["LOAD"]],[1,0],4,null,[]],[null,["Storage",["LOAD","STORE"]],[1,1],4,null,[]],'
         '[null,"Private",null,0,null,[]],[null,"Private",null,0,null,[]],[null,"Private",null,0,null,[]]],[')
BACK = "],[]]"
ARGUMENTS = '["FunctionArgument",0],["FunctionArgument",1],["FunctionArgument",2]'
IMAGES = "[null,2,null],[null,2,null],[null,3,null]"
COORDINATES = '["ZeroValue",1]'
GLOBALS = '["GlobalVariable",3],["GlobalVariable",4]'
SAMPLES = f'[null,[{IMAGES}],null,[],[{ARGUMENTS},{COORDINATES},["ImageSample",0,2,null,3,null,null,["Zero"],null,false]],[["Emit",4,5]],null]'


def small(index):
    """A function that loads, adds, multiplies and stores."""
    expressions = (f'["FunctionArgument",0],["GlobalVariable",{5 + index % 3}],["Load",1],["Literal","f32",{index}],'
                   '["Binary","Add",2,3],["Binary","Multiply",4,0]')
    statements = '["Emit",2,3],["Emit",4,6],["Store",1,5],["Return",null]'
    return [f"[null,[[null,0,null]],null,[],[{expressions}],[{statements}],null]"]


def calling(*passed):
    """A function that calls the one before once with each of these; the first one samples."""
    def made(index):
        statements = ",".join(f'["Call",{index - 1},{arguments},null]' for arguments in passed)
        return [f"[null,[{IMAGES}],null,[],[{ARGUMENTS}],[{statements}],null]" if index else SAMPLES]
    return made


def work(index):
    """What one function loads, multiplies and stores: expressions, and statements."""
    at = 2 + 5 * index
    return [f'["AccessIndex",0,{index}],["Load",{at}],["Literal","f32",{index}],["Binary","Multiply",{at + 1},{at + 2}],'
            f'["AccessIndex",1,{index}]',
            f'["Emit",{at},{at + 2}],["Emit",{at + 3},{at + 5}],["Store",{at + 4},{at + 3}]']


def choices(_index):
    """Statements of one function, half of them with others in them."""
    return ['["If",2,[["Store",1,0],["Block",[["Store",1,0]]]],[["Loop",[["Break"]],[],null]]]']


def samples(_index):
    """An expression of one function that samples."""
    return ['["ImageSample",0,2,null,3,null,null,["Zero"],null,false]']


def calls(_index):
    """A statement of one function that calls another."""
    return ['["Call",0,[0,1,2],null]']


# each kind of document: the texts before, between and behind its lists of items, and the texts of an item
VALUES = '["Literal","f32",0],["GlobalVariable",5],["Literal","bool",true]'
SAMPLING = f"{FRONT}{SAMPLES},[null,[{IMAGES}],null,[],[{ARGUMENTS},{COORDINATES}"
KINDS = {
    "small functions": ([FRONT, BACK], small),
    "one function": ([f"{FRONT}[null,[],null,[],[{GLOBALS},", "],[", f"],null]{BACK}"], work),
    "one function, choices": ([f"{FRONT}[null,[],null,[],[{VALUES}],[", f"],null]{BACK}"], choices),
    "one function, samples": ([f"{SAMPLING},", f"],[],null]{BACK}"], samples),
    "one function, calls": ([f"{SAMPLING}],[", f"],null]{BACK}"], calls),
    "a fan": ([FRONT, BACK], calling("[0,1,2]", "[1,0,2]")),
    "a chain": ([FRONT, BACK], calling("[1,0,2]")),
}


def written(size, pieces, item):
    """The text of a document of `size` bytes, and how many items it has."""
    lists, left, index = [[] for _ in pieces[1:]], size - sum(len(piece) for piece in pieces), 0
    while True:
        texts = item(index)
        left -= sum(len(text) + bool(index) for text in texts)
        if left < 0:
            left += sum(len(text) + bool(index) for text in texts)
            inner = [",".join(some) + piece for some, piece in zip(lists, pieces[1:])]
            return pieces[0] + "".join(inner) + " " * left, index
        for some, text in zip(lists, texts):
            some.append(text)
        index += 1


def main():
    counting = "--instructions" in sys.argv[1:]
    for program in (CASES, MEASURES):
        if not program.is_file():
            sys.exit(f"summaries: {program.relative_to(TOP)} is not built yet")
    missed = False
    unit = "million instructions" if counting else "ms"
    print(f"| document | items | what is kept of functions, {unit} | reading alone, {unit} | share |")
    print("|---|---|---|---|---|")
    for name, (pieces, item) in KINDS.items():
        for size in [1 << 18, 1 << 20] if counting else SIZES:
            document, count = written(size, pieces, item)
            with tempfile.TemporaryDirectory() as room:
                path = f"{room}/document.json"
                with open(path, "w") as it:
                    it.write(document)
                took, alone = (instructions if counting else times)(room, "summarized", document, path, "ordered")
            print(f"| {size >> 10} KiB, {name} | {count} | {took:.2f} | {alone:.1f} | {took / alone:.3f} |", flush=True)
            missed = missed or took > MOST_SHARE * alone
    return 1 if missed else 0


if __name__ == "__main__":
    sys.exit(main())
