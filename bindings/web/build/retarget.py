#!/usr/bin/env python3
"""Turns the LLVM text of a module for x86-64 into text for WebAssembly with 64-bit pointers: retarget.py IN OUT

The module comes from the Rattle toolchain, or is C compiled for x86-64. Both machines are little endian and have 64-bit
pointers. All that is particular to x86-64 is replaced. If the module has anything unknown, nothing is written and the
status is 1.
"""

import re
import sys

LAYOUT = "e-m:e-p:64:64-p10:8:8-p20:8:8-i64:64-i128:128-n32:64-S128-ni:1:10:20"
LAYOUTS = {"e-m:e-p270:32:32-p271:32:32-p272:64:64-i64:64-i128:128-f80:128-n8:16:32:64-S128"}
TRIPLE = "wasm64-unknown-unknown"
TRIPLES = {"x86_64-unknown-linux-gnu"}
# Attributes of functions that are particular to x86-64, which are removed, and those that mean the same everywhere.
REMOVED = {"probe-stack", "stack-probe-size", "target-cpu", "target-features", "tune-cpu"}
KEPT = {"min-legal-vector-width", "no-builtins", "no-trapping-math", "stack-protector-buffer-size"}
INTRINSICS = {
    "llvm.arithmetic.fence.f64", "llvm.ctlz.i64", "llvm.cttz.i32", "llvm.cttz.i64", "llvm.memmove.p0.p0.i64", "llvm.memset.p0.i64", "llvm.trap",
    "llvm.vector.reduce.or.v8i1", "llvm.x86.ssse3.pshuf.b.128",
}
# Metadata about the origin of a module, or about which pointers may alias.
METADATA = {"llvm.ident", "llvm.module.flags", "llvm.errno.tbaa"}
CALLED = {"rattle_alloc", "rattle_realloc", "rattle_dealloc", "malloc", "realloc", "free"}
# Words that mean something else on another machine, or that no module has had so far.
FOREIGN = re.compile(r"\b(asm|thread_local|addrspace|section|comdat|gc|prefix|prologue|personality|fence|cmpxchg|atomicrmw|atomic|va_arg"
                     r"|invoke|landingpad|callbr|indirectbr|blockaddress|x86_\w+|ppc_\w+|half|bfloat|fp128|fastcc|coldcc|tailcc|swiftcc|cc \d+)\b")
SHUFFLE = "llvm.x86.ssse3.pshuf.b.128"


def shuffle():
    """Returns a function that shuffles bytes: 0 if the index's highest bit is set, otherwise the byte at its lowest four bits."""
    lines = ["define internal <16 x i8> @pshufb(<16 x i8> %a, <16 x i8> %m) nounwind {"]
    for n in range(16):
        before = f"%r{n - 1}" if n else "zeroinitializer"
        lines += [
            f"  %m{n} = extractelement <16 x i8> %m, i32 {n}",
            f"  %i{n} = and i8 %m{n}, 15",
            f"  %b{n} = extractelement <16 x i8> %a, i8 %i{n}",
            f"  %z{n} = icmp slt i8 %m{n}, 0",
            f"  %s{n} = select i1 %z{n}, i8 0, i8 %b{n}",
            f"  %r{n} = insertelement <16 x i8> {before}, i8 %s{n}, i32 {n}",
        ]
    return "\n".join([*lines, "  ret <16 x i8> %r15", "}"])


def unknown(text):
    """Returns the names of everything unknown in a module."""
    found = []
    if set(re.findall(r'^target datalayout = "(.*)"$', text, re.MULTILINE)) - LAYOUTS or text.count("target datalayout") != 1:
        found.append("the data layout")
    if set(re.findall(r'^target triple = "(.*)"$', text, re.MULTILINE)) - TRIPLES or text.count("target triple") != 1:
        found.append("the target")
    groups = "\n".join(re.findall(r"^attributes #.*$", text, re.MULTILINE))
    found += sorted(set(re.findall(r'"([^"]*)"(?:="[^"]*")?', groups)) - REMOVED - KEPT)
    bare = re.sub(r'c?"[^"]*"', '""', text)
    bare = re.sub(r"^(;|source_filename|![0-9]).*$", "", bare, flags=re.MULTILINE)
    found += sorted(set(re.findall(r"@(llvm\.[\w.]+)", bare)) - INTRINSICS)
    found += sorted(set(re.findall(r"^!([A-Za-z_.]+) =", bare, re.MULTILINE)) - METADATA)
    found += sorted(set(re.findall(r"^declare [^@\n]*@(?!llvm\.)([\w.]+)", bare, re.MULTILINE)) - CALLED)
    found += sorted(set(it if isinstance(it, str) else it[0] for it in FOREIGN.findall(re.sub(r"@llvm\.[\w.]+", "", bare))))
    return found


def retargeted(text):
    """Returns the text for WebAssembly."""
    text = re.sub(r"^target datalayout = .*$", f'target datalayout = "{LAYOUT}"', text, flags=re.MULTILINE)
    text = re.sub(r"^target triple = .*$", f'target triple = "{TRIPLE}"', text, flags=re.MULTILINE)
    text = re.sub(rf' "(?:{"|".join(sorted(REMOVED))})"="[^"]*"', "", text)
    text = re.sub(rf"^declare <16 x i8> @{re.escape(SHUFFLE)}\(.*$", lambda _: shuffle(), text, flags=re.MULTILINE)
    return text.replace(f"@{SHUFFLE}(", "@pshufb(")


def main():
    """Reads the module, checks it, and writes the other one."""
    with open(sys.argv[1], encoding="utf-8") as file:
        text = file.read()
    found = unknown(text)
    if found:
        print(f"retarget.py: {sys.argv[1]} has unknown parts: {', '.join(found)}", file=sys.stderr)
        return 1
    with open(sys.argv[2], "w", encoding="utf-8") as file:
        file.write(retargeted(text))
    return 0


if __name__ == "__main__":
    sys.exit(main())
