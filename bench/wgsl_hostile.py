#!/usr/bin/env python3
"""Measures the check on WGSL texts that are made to take long: wgsl_hostile.py PROGRAM [KIND ..]

Each kind (all, where none is named) is made at N and 4N, and is given to the program under 256 KB of stack and 4 GB, for the verdict and
for each other form of answer. Prints seconds of a processor, bytes of memory a byte, and the answer's first words. The status is 1 where
4N takes more than 4.6 times as long as N for four times the bytes, or more than 60 bytes a byte, or ends by a signal. Kinds that
docs/PERFORMANCE.md tells are printed and not counted.
"""
import os
import resource
import subprocess
import sys
import tempfile
import time

STACK = 256 << 10
MEMORY = 4 << 30
SECONDS = 60
MOST_GROWTH = 4.6
MOST_MEMORY = 60
BASE_MEMORY = 64 << 20
BASE_SECONDS = .1
FORMS = [[], ["--explain"], ["--json"], ["--leaves"], ["--document"]]
KINDS = {}
TOLD = {"conjunctions", "array_indexed_often"}


def kind(n):
    def put(make):
        KINDS[make.__name__] = (make, n)
        return make
    return put


def f(body, head=""):
    return f"{head}fn f(a: u32, b: bool, c: vec4<f32>) -> u32 {{ {body} return a; }}\n"


@kind(40000)
def parentheses(n):
    return f(f"let x = {'(' * n}a{')' * n};")


@kind(40000)
def braces(n):
    return f("{" * n + "}" * n)


@kind(20000)
def calls_in_calls(n):
    return f(f"let x = {'max(a, ' * n}a{')' * n};")


@kind(20000)
def indexes_in_indexes(n):
    return f(f"let x = {'g[' * n}0{']' * n};", "var<private> g: array<u32, 4>; ")


@kind(20000)
def types_in_types(n):
    return f"alias T = {'array<' * n}u32{', 2>' * n};\n"


@kind(10000)
def types_of_aliases(n):
    return "alias A0 = u32;\n" + "".join(f"alias A{at + 1} = array<A{at}, 2>;\n" for at in range(n))


@kind(10000)
def else_ifs(n):
    return f("if b {}" + "".join(f" else if a == {at}u {{}}" for at in range(n)))


@kind(60000)
def negations(n):
    return f(f"let x = {'!' * n}b;")


@kind(40000)
def swizzles(n):
    return f(f"let x = c{'.xyzw' * n};")


@kind(40000)
def pointers(n):
    return f(f"let x = {'*&' * n}v;", "var<private> v: u32; ")


@kind(40000)
def conjunctions(n):
    return f(f"let x = b{' && b' * n};")


@kind(20000)
def conjunctions_to_the_right(n):
    return f(f"let x = {'b && (' * n}b{')' * n};")


@kind(40000)
def sums(n):
    return f(f"let x = a{' + a' * n};")


@kind(60000)
def comments(n):
    return "/*" * n + "*/" * n + f("")


@kind(60000)
def open_comments(n):
    return f("") + "/*" * n


@kind(100000)
def digits(n):
    return f(f"let x = 0.{'1' * n}; let y = 1{'0' * n}.0;")


@kind(60000)
def hexadecimal_digits(n):
    return f(f"let x = 0x0.{'0' * n}1p{4 * n};")


@kind(200000)
def a_long_name(n):
    return f(f"let {'x' * n} = 1; let y = {'x' * n};")


@kind(20000)
def names(n):
    return f("".join(f"let x{at} = a; " for at in range(n)))


@kind(20000)
def names_in_scopes(n):
    return f("".join(f"{{ let x = a; let y{at} = x; }} " for at in range(n)))


@kind(20000)
def array_elements(n):
    return f(f"let x = array({', '.join('1u' for _ in range(n))});")


@kind(20000)
def abstract_elements(n):
    return f"const T = array({', '.join('1' for _ in range(n))});\n" + f("let x = T[1];")


@kind(300)
def abstract_array_used_often(n):
    return f"const T = array({', '.join('1' for _ in range(n))});\n" + f("".join(f"let x{at} = T; " for at in range(n)))


@kind(4000)
def array_indexed_often(n):
    return f"const T = array({', '.join('1' for _ in range(n))});\n" + f("".join(f"let x{at} = T[a]; " for at in range(n)))


@kind(10000)
def declarations(n):
    return "".join(f"const c{at} = {at};\n" for at in range(n))


@kind(10000)
def constants_of_constants(n):
    return "const c0 = 1;\n" + "".join(f"const c{at + 1} = c{at} + 1;\n" for at in range(n))


@kind(10000)
def constants_backwards(n):
    return "".join(f"const c{at} = c{at + 1};\n" for at in range(n)) + f"const c{n} = 1;\n"


@kind(4000)
def doubling_constants(n):
    return "const c0 = array(1u, 2u);\n" + "".join(f"const c{at + 1} = array(c{at}, c{at});\n" for at in range(n))


@kind(4000)
def doubling_structs(n):
    return "struct S0 { a: u32 }\n" + "".join(f"struct S{at + 1} {{ a: S{at}, b: S{at} }}\n" for at in range(n)) + f"var<private> v: S{n};\n"


@kind(20)
def doubling_values(n):
    return "".join(f"const c{at + 1} = array(c{at}, c{at});\n" for at in range(n)) + "const c0 = array(1, 2);\n" + f(f"let x = c{n};")


@kind(4000)
def arguments(n):
    return f"fn g({', '.join(f'a{at}: u32' for at in range(n))}) {{}}\n" + f(f"g({', '.join('a' for _ in range(n))});")


@kind(5000)
def functions_of_functions(n):
    return "fn f0() {}\n" + "".join(f"fn f{at + 1}() {{ f{at}(); }}\n" for at in range(n))


@kind(5000)
def functions_backwards(n):
    return "".join(f"fn f{at}() {{ f{at + 1}(); }}\n" for at in range(n)) + f"fn f{n}() {{}}\n"


@kind(300)
def functions_calling_all(n):
    return "".join(f"fn f{at}() {{ {''.join(f'f{it}(); ' for it in range(at))}}}\n" for at in range(n))


@kind(10000)
def aliases(n):
    return "alias A0 = u32;\n" + "".join(f"alias A{at + 1} = A{at};\n" for at in range(n)) + f"var<private> v: A{n};\n"


@kind(1000)
def members(n):
    return f"struct S {{ {', '.join(f'm{at}: u32' for at in range(min(n, 1000)))} }}\n" * 1 + "".join(
        f"struct S{it} {{ {', '.join(f'm{at}: u32' for at in range(500))} }}\n" for it in range(n // 500))


@kind(2000)
def members_read(n):
    head = f"struct S {{ {', '.join(f'm{at}: u32' for at in range(1000))} }}\nvar<private> s: S;\n"
    return head + f("".join(f"let x{at} = s.m{at * 7 % 1000}; " for at in range(n)))


@kind(20000)
def statements(n):
    return f("v += a; " * n, "var<private> v: u32; ")


@kind(20000)
def open_template_lists(n):
    return f(f"let x = {'a < ' * n}a;")


@kind(20000)
def shifts_in_lists(n):
    return f"alias T = {'array<vec2<f32>,' * n}2{'>' * n};\n"


@kind(4000)
def cases(n):
    return f(f"switch a {{ {''.join(f'case {at}u {{}} ' for at in range(n))} default {{}} }}")


@kind(4000)
def case_values(n):
    return f(f"switch a {{ case {', '.join(f'{at}u' for at in range(n))} {{}} default {{}} }}")


@kind(40)
def switches_in_switches(n):
    return f("switch a { default { " * n + "} }" * n)


@kind(4000)
def loops(n):
    return f("for (var i = 0u; i < 4u; i++) {} " * n)


@kind(4000)
def samples(n):
    return ("@group(0) @binding(0) var t: texture_2d<f32>;\n@group(0) @binding(1) var s: sampler;\n@fragment fn main(@location(0) uv: vec2<f32>) -> "
            f"@location(0) vec4<f32> {{ var x = vec4<f32>(); {'x += textureSample(t, s, uv); ' * n} return x; }}\n")


@kind(2000)
def bindings(n):
    return "".join(f"@group(0) @binding({at}) var<storage, read_write> b{at}: array<u32>;\n" for at in range(n)) + \
        f"@compute @workgroup_size(1) fn main() {{ {''.join(f'b{at}[0] = 1u; ' for at in range(n))} }}\n"


@kind(20000)
def attributes(n):
    return f"@must_use {'@diagnostic(off, derivative_uniformity) ' * n}fn f() -> u32 {{ return 1u; }}\n"


@kind(40000)
def semicolons(n):
    return ";" * n + f(";" * n)


@kind(100000)
def one_long_line(n):
    return "/*" + "x" * n + "*/" + f("let x = missing;") + "/*" + "y" * n + "*/"


def limits():
    resource.setrlimit(resource.RLIMIT_STACK, (STACK, STACK))
    resource.setrlimit(resource.RLIMIT_AS, (MEMORY, MEMORY))


def run(program, words, text):
    """The status, seconds and memory of a run, and the answer's first words."""
    with tempfile.TemporaryFile() as given, tempfile.TemporaryFile() as written:
        given.write(text)
        given.seek(0)
        child = subprocess.Popen([program, "--wgsl", *words], stdin=given, stdout=written, stderr=subprocess.DEVNULL, preexec_fn=limits)
        until = time.monotonic() + SECONDS
        while True:
            pid, status, used = os.wait4(child.pid, os.WNOHANG)
            if pid:
                break
            if time.monotonic() > until:
                child.kill()
                os.wait4(child.pid, 0)
                return "late", SECONDS, 0, ""
            time.sleep(.005)
        child.returncode = status
        written.seek(0)
        answer = written.read(60).decode(errors="replace").split("\n")[0]
        how = f"signal {os.WTERMSIG(status)}" if os.WIFSIGNALED(status) else str(os.WEXITSTATUS(status))
        return how, used.ru_utime + used.ru_stime, used.ru_maxrss * 1024, answer


def main():
    program, names = os.path.abspath(sys.argv[1]), sys.argv[2:] or list(KINDS)
    bad = 0
    for name in names:
        make, n = KINDS[name]
        small, large = make(n).encode(), make(4 * n).encode()
        for words in FORMS:
            _, first, _, _ = run(program, words, small)
            how, seconds, memory, answer = run(program, words, large)
            growth = seconds / max(first, BASE_SECONDS) / max(1, len(large) / len(small) / 4)
            each = max(0, memory - BASE_MEMORY) / len(large)
            wrong = [it for it, holds in (("growth", growth > MOST_GROWTH), ("memory", each > MOST_MEMORY), (how, how not in "0123")) if holds]
            bad += bool(wrong) and name not in TOLD
            print(f"{name} {' '.join(words) or '-'}: {len(large)} bytes, {first:.2f} and {seconds:.2f} s, {each:.0f} bytes a byte, {how}: {answer[:50]}"
                  f"{' WRONG: ' + ', '.join(wrong) if wrong else ''}", flush=True)
    print(f"{len(names)} kinds, {bad} bad")
    sys.exit(bool(bad))


if __name__ == "__main__":
    main()
