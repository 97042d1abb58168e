#!/usr/bin/env python3
"""refuse_memory.py PROGRAM: refuses one allocation after another of the built program.

For each command the Nth allocation fails, for N from 1 until no allocation is left to refuse. Each
run has to write its full bytes, or to end with 99 and nothing written.
"""
import os
import subprocess
import sys
import tempfile

SHIM = r"""
#define _GNU_SOURCE
#include <dlfcn.h>
#include <stdlib.h>
#include <errno.h>
static long count, at;
static int refused(void) {
    if (!at) { const char *s = getenv("REFUSE_AT"); at = s ? atol(s) : -1; }
    return ++count == at;
}
void *malloc(size_t n) {
    static void *(*next)(size_t);
    if (!next) next = dlsym(RTLD_NEXT, "malloc");
    return refused() ? 0 : next(n);
}
void *realloc(void *p, size_t n) {
    static void *(*next)(void *, size_t);
    if (!next) next = dlsym(RTLD_NEXT, "realloc");
    return refused() ? 0 : next(p, n);
}
void *aligned_alloc(size_t a, size_t n) {
    static void *(*next)(size_t, size_t);
    if (!next) next = dlsym(RTLD_NEXT, "aligned_alloc");
    return refused() ? 0 : next(a, n);
}
int posix_memalign(void **p, size_t a, size_t n) {
    static int (*next)(void **, size_t, size_t);
    if (!next) next = dlsym(RTLD_NEXT, "posix_memalign");
    return refused() ? ENOMEM : next(p, a, n);
}
"""

SOURCE = "fn f(a: u32, b: u32) -> u32 { let c = a + b; c + 1 } fn g(x: u32) -> u32 { f(x, 2) + x }\n"
TEXT = os.path.join(os.path.dirname(os.path.abspath(__file__)), "..", "examples", "list.lean")
CALL = ["fn.first::<U8>", "1", "(List.cons 7#U8 (List.cons 8#U8 List.nil))", "0#U8"]
COMMANDS = [
    ["check", "a.rs"],
    ["translate", "a.rs"],
    ["run", "a.rs", "g", "2", "5"],
    ["run", "a.rs", "g", "2"],
    ["eval", "a.lean"] + CALL,
    ["eval", "a.lean"] + CALL[:-1] + ["0#U16"],
    ["eval", "rule.lean"] + CALL,
    ["eval", "cut.lean"] + CALL,
    ["translate", "no.rs"],
    [],
]


def main():
    program = os.path.abspath(sys.argv[1])
    with tempfile.TemporaryDirectory() as folder:
        with open(os.path.join(folder, "shim.c"), "w") as file:
            file.write(SHIM)
        subprocess.run(["cc", "-shared", "-fPIC", "-O1", "-o", "shim.so", "shim.c", "-ldl"], cwd=folder, check=True)
        with open(os.path.join(folder, "a.rs"), "w") as file:
            file.write(SOURCE)
        with open(TEXT, encoding="utf-8") as file:
            text = file.read()
        broken = {"a.lean": text, "rule.lean": text.replace("fn.sum n v2", "fn.total n v2"), "cut.lean": text[:-9]}
        for name, content in broken.items():
            with open(os.path.join(folder, name), "w", encoding="utf-8") as file:
                file.write(content)
        bad = 0
        for words in COMMANDS:
            whole = subprocess.run([program] + words, cwd=folder, stdout=subprocess.PIPE)
            n, wanted = 0, 0
            while n < 5000:
                n += 1
                env = dict(os.environ, LD_PRELOAD=os.path.join(folder, "shim.so"), REFUSE_AT=str(n))
                run = subprocess.run([program] + words, cwd=folder, stdout=subprocess.PIPE, stderr=subprocess.PIPE, env=env)
                if run.returncode == 99 and not run.stdout and not run.stderr:
                    wanted += 1
                elif (run.returncode, run.stdout) == (whole.returncode, whole.stdout):
                    break
                else:
                    bad += 1
                    print("BAD", words, n, run.returncode, run.stdout[:80], run.stderr[:80])
            print(f"{' '.join(words) or '(no words)'}: {wanted} allocations refused, each answered by 99; then {whole.returncode}")
    print(f"{len(COMMANDS)} commands, {bad} failed")
    sys.exit(bool(bad))


if __name__ == "__main__":
    main()
