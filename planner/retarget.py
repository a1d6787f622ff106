#!/usr/bin/env python3
"""Retargets the compiler's module of the library from x86-64 to wasm64: retarget.py LAYOUT < x86.ll > wasm.ll. Both have pointers of 64
bits, and their structs are laid out alike, so the code itself stays. What changes is the target, its data layout, the processor's
attributes, and that the exports are named as the linker for wasm64 wants it. It stops where the module has a word that only x86-64
understands, or calls anything but the heap and LLVM."""
import re
import sys

FOREIGN = {"rattle_alloc", "rattle_realloc", "rattle_dealloc"}
OF_X86 = (r"\bx86|\basm\b|\bbyval\b|\bsret\b|\bfastcc\b|\bthread_local\b|\baddrspace\b"
          r"|\bx86_fp80\b|\bfp128\b|frameaddress|returnaddress")
ATTRIBUTES = r' "(probe-stack|stack-probe-size|target-cpu|target-features|tune-cpu)"="[^"]*"'
EXPORT = r"^(define (?!internal)[^@]*@(\w+)\(.*) \{$"


def once(pattern, by, text):
    text, times = re.subn(pattern, by, text, flags=re.M)
    if times != 1:
        sys.exit(f"retarget.py: {times} lines of the module are {pattern}")
    return text


def main(layout):
    text = re.sub(ATTRIBUTES, "", sys.stdin.read())
    text = once(r"^; ModuleID = .*\n", "", text)
    text = once(r"^target datalayout = .*", f"target datalayout = {layout}", text)
    text = once(r"^target triple = .*", 'target triple = "wasm64-unknown-unknown"', text)
    if found := re.search(OF_X86, text):
        sys.exit(f"retarget.py: the module says {found[0]}, which is not known to mean the same on wasm64")
    called = {name for name in re.findall(r"^declare [^@]*@([\w.]+)", text, re.M) if not name.startswith("llvm.")}
    if called != FOREIGN:
        sys.exit(f"retarget.py: the module calls {', '.join(sorted(called))}, and the heap has {', '.join(sorted(FOREIGN))}")
    sys.stdout.write(re.sub(EXPORT, r'\1 "wasm-export-name"="\2" {', text, flags=re.M))


main(*sys.argv[1:])
