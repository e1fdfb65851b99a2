#!/usr/bin/env python3
"""Writes compute shaders of WGSL by chance: wgsl_programs.py FOLDER COUNT

Each is a file of FOLDER, which `try-meaning` runs. Its results are the same in whatever order invocations run: a loop ends after at most
8 rounds, what is shared is read after a barrier, and atomics do what commutes.
"""
import sys
from pathlib import Path

sys.dont_write_bytecode = True
from wgsl_texts import Shader, spell

COUNT = 64
HEAD = """@compute @workgroup_size(32)
fn main(@builtin(global_invocation_id) id: vec3<u32>, @builtin(local_invocation_index) local: u32) {
    let at = id.x;"""


class Program(Shader):
    """A compute shader that reads buffers, computes, and leaves its results in others."""

    def inputs(self):
        """The buffers that it reads."""
        types = [("array", of, COUNT) for of in ("i32", "u32", "f32", ("vec", 4, "f32"))] + [("struct", it) for it in self.structs]
        for at, ty in enumerate(types):
            name = self.name()
            self.scopes[0].append((name, ty, "read"))
            yield f"@group(0) @binding({at}) var<storage> {name}: {spell(ty)};"

    def privates(self):
        """Two variables of an invocation."""
        for _ in range(2):
            name, ty = self.name(), self.value_type()
            self.scopes[0].append((name, ty, "read_write"))
            yield f"var<private> {name}: {spell(ty)};"

    def body(self, outputs):
        """The lines of the entry point."""
        self.scopes.append([("at", "u32", "let"), ("local", "u32", "let")])
        lines = [line for _ in range(self.dice.randrange(4, 10)) for line in self.statement(2, 1)]
        lines += [f"    shared_values[local] = {self.expression('f32')};", f"    atomicAdd(&shared_total, {self.expression('i32')});",
                  "    workgroupBarrier();", f"    let neighbour = shared_values[(local + {self.dice.randrange(32)}u) % 32u];",
                  "    let total = atomicLoad(&shared_total);"]
        self.scopes[-1] += [("neighbour", "f32", "let"), ("total", "i32", "let")]
        lines += [line for _ in range(self.dice.randrange(1, 5)) for line in self.statement(2, 1)]
        lines += [f"    result{at}[at] = {self.expression(ty, 3)};" for at, ty in enumerate(outputs)]
        ways = [self.pick("Add", "Min", "Max", "And", "Or", "Xor") for _ in range(4)]
        return lines + [f"    atomic{way}(&sums[{at}], {self.expression('u32')});" for at, way in enumerate(ways)]

    def write(self):
        self.half, self.inside = False, ["function"]
        first = [self.constant() for _ in range(self.dice.randrange(4))]
        first += [self.structure() for _ in range(self.dice.randrange(1, 4))]
        first += self.inputs()
        outputs = [self.pick("i32", "u32"), "f32", ("vec", 3, "f32"), self.shared_type()]
        for at, ty in enumerate(outputs):
            first.append(f"@group(1) @binding({at}) var<storage, read_write> result{at}: array<{spell(ty)}, {COUNT}>;")
        first.append(f"@group(1) @binding({len(outputs)}) var<storage, read_write> sums: array<atomic<u32>, 4>;")
        first.append("var<workgroup> shared_total: atomic<i32>;\nvar<workgroup> shared_values: array<f32, 32>;")
        first += self.privates()
        first += [self.function() for _ in range(self.dice.randrange(1, 4))]
        return "\n\n".join([*first, "\n".join([HEAD, *self.body(outputs), "}"])]) + "\n"


def main():
    for at in range(int(sys.argv[2])):
        (Path(sys.argv[1]) / f"{at:04}.wgsl").write_text(Program(f"program {at}").write())


if __name__ == "__main__":
    main()
