#!/usr/bin/env python3
"""Prints docs/BENCHMARKS.md: bench/table.py ROUNDS OURS RUST KIT RUSTC; OURS and RUST are the outputs of the two programs."""
import platform
import re
import sys
from pathlib import Path

rounds, ours_path, rust_path, kit, rustc = sys.argv[1:]
ours = dict(line.split() for line in open(ours_path))
told = open(rust_path).read()
rust_build = float(re.search(r"^build (\d+) ns", told, re.M)[1])
rust_text = float(re.search(r"([\d.]+) ns a byte", told)[1])
rust_bytes = re.search(r"text (\d+) bytes", told)[1]
assert rust_bytes == ours["bytes"], "both write the same text"


def processor():
    try:
        return re.search(r"^model name\s*: (.*)$", open("/proc/cpuinfo").read(), re.M)[1]
    except (OSError, TypeError):
        return platform.machine()


def row(name, unit, a, b, goal=None):
    fast = b / a
    met = "" if goal is None else f"{goal}, met" if fast >= goal else f"{goal}, missed"
    print(f"| {name} | {a:,.6g} {unit} | {b:,.6g} {unit} | {fast:.1f} | {met} |")


def met(time, goal):
    return f"{goal}, {'met' if time <= goal else 'missed'}"


print(f"""# Benchmarks

Written by `bench/run {rounds}`: the best of {rounds} passes (blocks and programs: a quarter as many), in one run on one machine. Every time includes the
function's own checks, such as the pool check. The Rust is `oracle-bench`.

- Kit: {kit}
- Rust: {rustc}
- Processor: {processor()}

## Compared with the Rust

| What | Here | Rust | Ratio | Goal |
|---|---|---|---|---|""")
row("Build a term, mean of all forms", "ns", float(ours["build"]), rust_build, 4)
row("Text, per byte", "ns", float(ours["text"]), rust_text, 3)
row("Length of the text, per byte", "ns", float(ours["length"]), rust_text)
row("Line program on all forms", "µs", float(ours["program"]), float(ours["program-rust"]), 2)
row("Block of 85 records, per record", "ns", float(ours["block-85"]), rust_build)
print(f"""
The {int(ours["forms"]):,} forms add {int(ours["nodes"]):,} nodes, at most {ours["most"]} each, and have {int(ours["bytes"]):,} bytes of text. A record of a
block is compared with the Rust's mean for one tree; the Rust writes text to a string with enough capacity.

## Functions

| What | Time | Goal |
|---|---|---|""")


def line(what, key, unit, goal=None):
    time = float(ours[key])
    print(f"| {what} | {time:,.4g} {unit} | {met(time, goal) if goal else ''} |")


line("`neon_value`, per visit", "visit", "ns", 15)
line("`neon_run_block`, per record, mean of all forms", "run", "ns", 300)
line("`neon_join`, two pools of 32,767 nodes, per node", "join", "ns", 4)
line("`neon_read_words`, per word", "read-word", "ns")
line("`neon_write_words`, per word", "write-word", "ns")
line("`neon_read_lines`, per line", "read-line", "ns")
line("`neon_write_script`, terms of instructions, per byte", "script", "ns", 1)
line("`neon_write_script`, kinds in random order, per byte", "script-random", "ns")
line("`neon_script_length`, per node", "script-length", "ns")
line("`neon_script_length`, kinds in random order, per node", "script-random-length", "ns")
line("`neon_write_lane_script`, per byte", "script-lane", "ns")
line("`neon_write_lane_script`, kinds in random order, per byte", "script-random-lane", "ns")
line("`neon_lane_script_length`, per node", "script-lane-length", "ns")
line("`neon_lane_script_length`, kinds in random order, per node", "script-random-lane-length", "ns")
line("program `forms`", "listing", "µs")
line("program `run`, 85 records", "run-program", "µs")
line("program `script`, 85 records", "script-program", "µs")
FAMILIES = {
    "shifts": "shifts, 1 to 16",
    "inserts": "SLI, SRI, 17 and 18",
    "sums": "saturating and halving sums, 19 to 26",
    "narrows": "narrowing, 27 to 37",
    "unary": "SQABS, SQNEG, 38 and 39",
    "multiplies": "SQDMULH, SQRDMULH, 40 and 41",
    "doubling": "doubling long, 42 to 53",
    "mixed": "SUQADD, USQADD, 54 and 55",
    "differences": "absolute differences, 56 to 59",
    "bits": "CNT, CLZ, CLS, RBIT, 60 to 63",
    "high": "high halves, 64 to 67",
}
print("""
## Runs by operation

| Operations | ns per record |
|---|---|""")
for name, words in FAMILIES.items():
    print(f"| {words} | {float(ours['run-' + name]):.0f} |")


def growth(name):
    return {int(k.split("-")[1]): float(v) for k, v in ours.items() if k.startswith(name + "-") and "rust" not in k}


check, random, block = growth("check"), growth("random"), growth("block")
print(f"""
## Growth

Pool check of 65,000 nodes of instructions: {check[65000]:.2f} ns per node, goal {met(check[65000], 5)}. The processor cannot predict kinds in random
order.

| Nodes | Pool check, ns per node | Kinds in random order |
|---|---|---|""")
for count, time in check.items():
    print(f"| {count:,} | {time:.2f} | {random[count]:.2f} |")
orders = {"chain": "chain", "pairs": "pairs of equal nodes", "random": "random sums"}
colliding = {
    "collide": "32,768 constants of one bucket and their sums",
    "ites": "61,439 Ites of one bucket, after sums and conditions",
    "twice": "32,768 constants of one bucket in both tables and their sums",
}
slowest = max(float(ours["canonical-" + name]) for name in orders | colliding)
print(f"""
Canonical pools of 65,535 nodes, goal {met(slowest, 80)}. The last three have keys that collide on purpose.

| Order | ns per node |
|---|---|""")
for name, words in (orders | colliding).items():
    print(f"| {words} | {float(ours['canonical-' + name]):.1f} |")
print("""
Blocks of mixed forms:

| Records | ns per record |
|---|---|""")
for count, time in block.items():
    print(f"| {count} | {time:.0f} |")
print(f"| 31, with the saturation bit | {float(ours['saturation']):.0f} |")
print("""
SQADD 16B whose sources are nested cuts. Each of the 32 lanes walks past all of them; lowering makes none.

| Nested cuts | µs |
|---|---|""")
for count, time in growth("nested").items():
    print(f"| {count:,} | {time:.1f} |")

SIZES = {
    "sqrshl": "85 SQRSHL 16B",
    "sqrdmulh": "85 SQRDMULH 4S",
    "sqadd": "two blocks of 85 SQADD 16B, sources exchanged",
}


def of(name, figure):
    return float(ours[f"question-{name}-{figure}"])


print("""
## Questions

`neon_question` on all 128 bits of v0, pool checks and clearing the table with it, beside a plain builder in Rust (`bench/graphs.rs`) with the same
rules, whose memory grows and which checks nothing. The goal is to be no slower.

| Blocks | Nodes | Gates | Twice | Rust's gates | Time | Rust | Per gate | Rust | Goal |
|---|---|---|---|---|---|---|---|---|---|""")
for name, words in SIZES.items():
    met = "met" if of(name, "ms") <= of(name, "rust-ms") else "missed"
    print(
        f"| {words} | {of(name, 'nodes'):,.0f} | {of(name, 'gates'):,.0f} | {of(name, 'lost'):,.0f} "
        f"| {of(name, 'rust-gates'):,.0f} | {of(name, 'ms'):,.1f} ms "
        f"| {of(name, 'rust-ms'):,.1f} ms | {of(name, 'gate'):,.0f} ns | {of(name, 'rust-gate'):,.0f} ns | {met} |"
    )
two = of("sqadd", "ms")
print(f"""
The two blocks of SQADD 16B take {two:.1f} ms; the goal is 20, {"met" if two <= 20 else "missed"}. The graph takes 8 bytes per gate, the places of
literals 1,032 bytes per node, the table here 8 bytes for each gate of `neon_question_room`. A gate that the table loses is built
again and is there twice: over all forms {of("forms", "lost"):,.0f} of {of("forms", "gates"):,.0f}; the Rust has {of("forms", "rust-gates"):,.0f}.

`neon_equal` takes {float(ours["hint"]):.1f} ns per hint on a refutation with {int(ours["hints"]):,} hints, the building of the graph with it; a plain
checker in Rust takes {float(ours["hint-rust"]):.1f} ns per hint.""")
print(Path(__file__).with_name("measured.md").read_text(), end="")
