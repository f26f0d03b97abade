"""Rewrites an LLVM module as text from x86-64 to 64-bit WebAssembly, as far as the proved program needs it.

Both targets have addresses of 64 bits, the same order of bytes and the same alignments. So only the header changes, and
what names an instruction of x86. An instruction without a counterpart here is refused by its name.
"""
import re

LAYOUT = "e-m:e-p:64:64-p10:8:8-p20:8:8-i64:64-i128:128-n32:64-S128-ni:1:10:20"
LANES = 16


class NoCounterpart(Exception):
    """Which instructions of x86 have none."""


def shuffle_bytes():
    """Returns pshufb as a function: lane k is that which the low bits of lane k of the mask name, or 0 where its sign is set."""
    lines, built = ["define internal <16 x i8> @shuffle_bytes(<16 x i8> %from, <16 x i8> %mask) alwaysinline {"], "poison"
    for k in range(LANES):
        lines += [
            f"  %mask{k} = extractelement <16 x i8> %mask, i32 {k}",
            f"  %low{k} = and i8 %mask{k}, {LANES - 1}",
            f"  %lane{k} = zext i8 %low{k} to i32",
            f"  %taken{k} = extractelement <16 x i8> %from, i32 %lane{k}",
            f"  %sign{k} = icmp slt i8 %mask{k}, 0",
            f"  %byte{k} = select i1 %sign{k}, i8 0, i8 %taken{k}",
            f"  %built{k} = insertelement <16 x i8> {built}, i8 %byte{k}, i32 {k}",
        ]
        built = f"%built{k}"
    return "\n".join([*lines, f"  ret <16 x i8> {built}", "}", ""])


# What is replaced, each by a pattern.
REPLACED = (
    (r"(?m)^target datalayout.*", f'target datalayout = "{LAYOUT}"'),
    (r"(?m)^target triple.*", 'target triple = "wasm64-unknown-unknown"'),
    (r'"target-cpu"="[^"]*"|"probe-stack"="inline-asm"|"stack-probe-size"="\d+"', ""),
    # The hint of a loop that waits for another thread.
    (r".*@llvm\.x86\.sse2\.pause\(.*\n", ""),
    # It gives its argument, and only keeps a compiler from computing on across it.
    (r"call double @llvm\.arithmetic\.fence\.f64\(double ([^)]*)\)", r"bitcast double \1 to double"),
    # No thread is started (c/system.c), so no function's address is needed, and the module has no table of functions.
    (r"(call i32 @pthread_create\(ptr %a0, ptr %a1, ptr) %a2", r"\1 null"),
)
SHUFFLE = "@llvm.x86.ssse3.pshuf.b.128"


def retargeted(text):
    """Returns the module for wasm64."""
    for pattern, new in REPLACED:
        text = re.sub(pattern, new, text)
    if SHUFFLE in text:
        text = re.sub(rf"(?m)^declare .*{re.escape(SHUFFLE)}.*\n", "", text)
        text = text.replace(SHUFFLE, "@shuffle_bytes") + shuffle_bytes()
    left = sorted(set(re.findall(r"@llvm\.x86\.[\w.]+", text)))
    if left:
        raise NoCounterpart(", ".join(left))
    return text
