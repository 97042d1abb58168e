#!/usr/bin/env python3
"""bench.py [PROGRAM]: time, peak memory and growth of the built program on inputs that double.

PROGRAM is what `./aeneas build` builds where it isn't given. Sources for `translate` have many
functions with lets, sums of ten terms and calls, or functions with many lets each; sources with all forms
of the language are read, with their names, and refused as for later. One source for `run` is a chain of 250 calls. Texts for `eval` have many definitions with types
and matches, or one definition with many binds, and are read whole before one of their definitions is
evaluated. The last line is a loop of sums at a fuel of 1,000,000, by the program loop_bench where
that is built.
"""
import os
import subprocess
import sys
import tempfile
import time

HERE = os.path.dirname(os.path.abspath(__file__))
BUILT = os.path.join(HERE, "..", "crates", "aeneas_program", "out", "aeneas_program")
PROGRAM = os.path.abspath(sys.argv[1] if len(sys.argv) > 1 else BUILT)
LOOP = os.path.join(HERE, "..", "crates", "loop_bench", "out", "loop_bench")
KIB, MIB = 1024, 1024 * 1024
SOURCE_SIZES = [256 * KIB, 512 * KIB, MIB]
TEXT_SIZES = [MIB, 2 * MIB, 4 * MIB, 8 * MIB, 16 * MIB]
TURNS = 999_999
BINDS_A_TURN = 3


def many_functions(size):
    """Functions with lets, sums of ten terms and a call of the function before: at most 4,096 of them."""
    parts, length, k = [], 0, 0
    while True:
        call = f" + step{k - 1}(c, a)" if k else ""
        text = (
            f"fn step{k}(a: u32, b: u32) -> u32 {{\n"
            f"    let c = a + b + {k} + a + b + 2 + a + b + 3 + a;\n"
            f"    let d = c + c{call};\n"
            "    let e = d + 1 + a + 2 + b + 3 + c + 4 + d + 5;\n"
            "    let f = e + d + c + b + a + 6 + e + 7 + d + 8 + c;\n"
            "    let g = f + e + d + c + b + 9 + f + 10 + e + 11;\n"
            "    g + 1 + a + 2 + b + 3 + c + 4 + d + 5\n}\n"
        )
        if length + len(text) > size:
            return "".join(parts)
        parts.append(text)
        length += len(text)
        k += 1


def many_lets(size):
    """Functions with 900 lets each, each using the first and the last variable."""
    parts, length, k = [], 0, 0
    while True:
        lets = [f"    let y{j} = x + {'y%d' % (j - 1) if j else 'x'};\n" for j in range(900)]
        text = f"fn lets{k}(x: u32) -> u32 {{\n{''.join(lets)}    y899 }}\n"
        if length + len(text) > size:
            return "".join(parts)
        parts.append(text)
        length += len(text)
        k += 1


def all_forms(size):
    """Types and functions with all forms of the language, which is read, its names resolved, and refused as for later."""
    parts, length, k = [], 0, 0
    while True:
        text = (
            f"#[derive(Debug)]\nstruct Pair{k}<A, B> {{ pub first: A, second: (B, u8) }}\nstruct Unit{k};\nstruct Of{k}(i64, bool);\n"
            f"enum Tree{k}<T> {{ Leaf, Node(Box<Tree{k}<T>>, T), Both(T, T) }}\n"
            f"pub fn first{k}<'a, T>(pair: &'a mut Pair{k}<T, i32>, other: &T) -> &'a mut T {{ &mut pair.first }}\n"
            f"fn sum{k}(tree: &Tree{k}<u32>, mut turns: u32) -> u32 {{\n"
            "    let mut sum: u32 = 0; let (low, high): (u32, u32) = (1u32, 2);\n"
            "    while turns > 0 && !(sum >= 1_000) { turns -= 1; if turns % 2 == 0 { continue; } sum += low * (high - turns) << 1; }\n"
            f"    match *tree {{ Tree{k}::Leaf => {{}} Tree{k}::Node(_, value) => sum = value, Tree{k}::Both(a, _) => {{ return a; }} }}\n"
            "    let part = loop { if sum == 7 || turns > 3 { break sum as u8; } sum = sum ^ 0x1F | high & 3; };\n"
            f"    let made = Pair{k} {{ first: -5i64, second: (true, part) }};\n"
            f"    if let Pair{k} {{ first, second: (flag, 0) }} = made {{ assert!(flag, \"no flag\"); let of = Of{k}(first, false); of.0 as u32 }}\n"
            "    else if low < high { let boxed = Box::new(sum); *boxed + std::mem::replace(&mut sum, 3) } else { unreachable!() }\n}\n"
        )
        if length + len(text) > size:
            return "".join(parts)
        parts.append(text)
        length += len(text)
        k += 1


def call_chain(length):
    """Functions that each call the one before, as deep as a bound of 250 allows."""
    parts = ["fn step1(x: u32) -> u32 { x }\n"]
    parts += [f"fn step{k}(x: u32) -> u32 {{ let y = x + 1; step{k - 1}(y) }}\n" for k in range(2, length + 1)]
    return "".join(parts)


HEADER = "import AenPrelude\nopen AenPrelude\n"
HEAD = "  match n with\n  | 0 => outOfFuel\n  | n + 1 => do\n"


def many_definitions(size):
    """Types, and definitions with matches, terms and calls of the one before."""
    parts, length, k = [HEADER, "\nstructure P where\n  (x : U8)\n  (y : I64)\n"], 100, 0
    parts.append("\ninductive L (T : Type) where\n  | nil : L T\n  | cons : T → (L T) → L T\n")
    while True:
        before = f"fn.f{k - 1} n v2" if k else "U32.add v1 1#U32"
        text = (
            f"\ndef fn.f{k} (n : Nat) (v0 : (L (U32 × P))) : Result U32 :=\n{HEAD}"
            "    (match v0 with\n    | L.nil => do\n      ok 0#U32\n    | L.cons v1 v2 => do\n"
            "      (match v1 with\n      | (v3, v4) => do\n        let v5 ← U32.add v3 1#U32;\n"
            "        let v6 := (L.cons (v5, (P.mk 255#U8 -1#I64)) v2);\n"
            f"        fn.g{k} n v6))\n"
            f"\ndef fn.g{k} (n : Nat) (v0 : (L (U32 × P))) : Result U32 :=\n{HEAD}"
            f"    let v1 ← U32.mul 3#U32 4#U32;\n    {before.replace('v2', 'v0')}\n"
        )
        if length + len(text) > size:
            return "".join(parts)
        parts.append(text)
        length += len(text.encode())
        k += 1


def many_binds(size):
    """One definition with many binds."""
    parts, length, k = [f"{HEADER}\ndef fn.f0 (n : Nat) (v0 : U32) : Result U32 :=\n{HEAD}"], 200, 1
    while True:
        text = f"    let v{k} ← U32.xor v{k - 1} {k % 97}#U32;\n"
        if length + len(text) > size:
            return "".join(parts) + f"    ok v{k - 1}\n"
        parts.append(text)
        length += len(text.encode())
        k += 1


def measure(words, folder):
    """Seconds, peak kilobytes, status and bytes written of one run."""
    out = os.path.join(folder, "out")
    with open(out, "wb") as sink:
        start = time.perf_counter()
        child = subprocess.Popen(words, cwd=folder, stdout=sink, stdin=subprocess.DEVNULL)
        _, status, usage = os.wait4(child.pid, 0)
        seconds = time.perf_counter() - start
    return seconds, usage.ru_maxrss, os.waitstatus_to_exitcode(status), os.path.getsize(out)


def best(words, folder):
    """The fastest of three runs."""
    return min(measure(words, folder) for _ in range(3))


def write_apart(make, size, path):
    """Writes an input in a process of its own: what this one holds counts in a child's peak."""
    if os.fork() == 0:
        with open(path, "wb") as file:
            file.write(make(size).encode())
        os._exit(0)
    os.wait()


def table(name, make, sizes, words):
    """One line for each size: what the program does with the words on an input of that size."""
    before = None
    for size in sizes:
        with tempfile.TemporaryDirectory() as folder:
            input_file = os.path.join(folder, "a")
            write_apart(make, size, input_file)
            length = os.path.getsize(input_file)
            seconds, peak, status, written = best([PROGRAM] + words, folder)
        growth = f"{seconds / before:.2f}" if before else "-"
        before = seconds
        share = peak * KIB / length
        print(f"{name:24} {length:9} {seconds:8.3f} {growth:>7} {peak / KIB:8.1f} {share:6.1f} {written:9} {status:6}")


def main():
    if not os.access(PROGRAM, os.X_OK):
        sys.exit(f"bench.py: there is no program {PROGRAM}: ./aeneas build makes it")
    print(f"{'input':24} {'bytes':>9} {'seconds':>8} {'growth':>7} {'peak MB':>8} {'a byte':>6} {'written':>9} status")
    for name, make in [("many functions", many_functions), ("many lets", many_lets)]:
        table(f"translate {name}", make, SOURCE_SIZES, ["translate", "a"])
    table("read all forms", all_forms, SOURCE_SIZES, ["translate", "a"])
    table("run a chain of calls", call_chain, [250], ["run", "a", "step250", "250", "1"])
    table("eval many definitions", many_definitions, TEXT_SIZES, ["eval", "a", "fn.g0", "9", "L.nil"])
    table("eval many binds", many_binds, TEXT_SIZES, ["eval", "a", "fn.f0", "9", "7#U32"])
    if os.path.exists(LOOP):
        with tempfile.TemporaryDirectory() as folder:
            seconds, peak, status, _ = best([LOOP], folder)
        binds = TURNS * BINDS_A_TURN / seconds / 1e6
        print(f"loop of sums: {seconds:.3f} s, {binds:.1f} million binds a second, peak {peak / KIB:.1f} MB, status {status}")


if __name__ == "__main__":
    main()
