#!/usr/bin/env python3
"""Shows where the instructions of one reading go: python3 scripts/profile_reader.py [CASE]

callgrind (Debian: valgrind) counts the instructions of aztec_decode on a symbol of `harness draw-timed`: F32-50-wrong, or the one named.
The compiler puts most functions into few, so a table by function says little; a second one lists stretches of code that ran about equally
often. How often tells a loop apart: at 12 bits 13·K times for the last step of the syndromes, 13·n for that of the roots.
"""
import collections
import re
import sys

# Nothing but target/ shall be written to.
sys.dont_write_bytecode = True
import bench_peers

RECORD = bench_peers.BUILD / "callgrind.out"
CASE = "F32-50-wrong"
# Shares of all instructions below which nothing is listed, for functions and stretches.
LEAST_SHARE = 0.003
# A stretch ends where the counts change by more than this, or at a hole of so many bytes in what ran.
ALIKE = 0.1
HOLE = 32

# Instructions run, conditional branches, and those that callgrind's simple predictor got wrong.
Cost = collections.namedtuple("Cost", "runs branches mispredicted")


def record(case):
    bench_peers.build_shared()
    bench_peers.build_harness()
    bench_peers.draw_cases()
    options = ["--quiet", "--tool=callgrind", "--dump-instr=yes", "--branch-sim=yes", "--toggle-collect=aztec_decode"]
    program = [bench_peers.BUILD / "ours", bench_peers.CASES, "--read", case, "1"]
    if bench_peers.said("valgrind", *options, f"--callgrind-out-file={RECORD}", *program).strip() != "right":
        sys.exit(f"{case} was not read")


def costs():
    """By address: the function it is in, and its cost. What a called function costs is left to that function."""
    names, found = {}, {}
    function, address, of_a_call = None, 0, False
    for line in RECORD.read_text().splitlines():
        if named := re.match(r"(c?)fn=\((\d+)\)(?: (.*))?", line):
            names.setdefault(named[2], named[3])
            function = function if named[1] else named[2]
        elif line.startswith("calls="):
            of_a_call = True
        elif cost := re.match(r"(0x\w+|[+-]\d+|\*) \S+ (.+)", line):
            address = moved(address, cost[1])
            if not of_a_call:
                found[address] = names[function], added(found.get(address), cost[2])
            of_a_call = False
    return found


def moved(address, step):
    """callgrind writes an address, or how far it is from the last."""
    if step.startswith("0x"):
        return int(step, 16)
    return address if step == "*" else address + int(step)


def added(before, numbers):
    runs, branches, mispredicted = ([int(number) for number in numbers.split()] + [0, 0])[:3]
    old = before[1] if before else Cost(0, 0, 0)
    return Cost(old.runs + runs, old.branches + branches, old.mispredicted + mispredicted)


def stretches(found):
    """Neighbouring instructions of one function that ran about equally often, each as a list of costs."""
    made, last = [], None
    for address in sorted(found):
        function, cost = found[address]
        begun = made[-1] if made else None
        alike = begun and begun[0] == function and abs(begun[1][0].runs - cost.runs) <= ALIKE * begun[1][0].runs
        if alike and address - last < HOLE:
            begun[1].append(cost)
        else:
            made.append((function, [cost]))
        last = address
    return made


def print_functions(found, whole):
    counts = collections.Counter()
    for function, cost in found.values():
        counts[function] += cost.runs
    rows = [[name, f"{count:,}", f"{count / whole:.1%}"] for name, count in counts.most_common() if count >= LEAST_SHARE * whole]
    bench_peers.print_table(["Function", "instructions", "share"], rows)


def print_stretches(found, whole):
    rows = []
    for function, part in sorted(stretches(found), key=lambda made: -sum(cost.runs for cost in made[1])):
        count = sum(cost.runs for cost in part)
        if count >= LEAST_SHARE * whole:
            missed = sum(cost.mispredicted for cost in part)
            rows.append([function, f"{len(part)}", f"{max(cost.runs for cost in part):,}", f"{count / whole:.1%}", f"{missed:,}"])
    bench_peers.print_table(["In", "instructions", "times run", "share", "branches mispredicted"], rows)


def main(arguments):
    case, *more = arguments or [CASE]
    if more or case.startswith("-"):
        sys.exit(__doc__)
    record(case)
    found = costs()
    whole = sum(cost.runs for _, cost in found.values())
    print(f"{case}: {whole:,} instructions\n")
    print_functions(found, whole)
    print_stretches(found, whole)
    return 0


if __name__ == "__main__":
    sys.exit(main(sys.argv[1:]))
