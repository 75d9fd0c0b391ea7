#!/usr/bin/env python3
"""Times corrector, reader and maker beside programs of others: python3 scripts/bench_peers.py

Builds the programs of harness/peers and a harness of its own in target/peers, has the programs take turns on the same symbols, and prints
tables for docs/SPEED.md: the fastest and the slowest of all runs, eleven in each of three turns, and the ratio of the fastest. A peer whose
package is missing is left out and named. What a peer read or made wrongly is marked in the tables and counted below them.
crates/aztec_c/out/libaztec_c.a has to be there (`rt lib` in crates/aztec_c).
"""
import collections
import os
import pathlib
import re
import shutil
import subprocess
import sys

ROOT = pathlib.Path(__file__).resolve().parent.parent
SOURCES = ROOT / "harness/peers"
ARCHIVE = ROOT / "crates/aztec_c/out/libaztec_c.a"
BUILD = ROOT / "target/peers"
CASES = BUILD / "cases"
HARNESS = BUILD / "harness/release/harness"
JAR = pathlib.Path("/usr/share/java/core.jar")
# The programs take turns, so that whatever else goes on slows all of them.
TURNS = 3

C = ["cc", "-std=c11", "-O2", "-Wall", "-Wextra"]
CPP = ["c++", "-std=c++17", "-O2", "-Wall", "-Wextra"]
SHARED = [BUILD / "cases.o", BUILD / "times.o"]

# A peer's program, its title, its packages, the test that they are there, and how it is built and run.
Peer = collections.namedtuple("Peer", "name title packages there build run")
# The note is the outcome, or for the harness's own lines the unit.
Line = collections.namedtuple("Line", "fast slow note")


def said(*command, **options):
    """What a command writes; the script ends where the command fails."""
    done = subprocess.run(command, stdout=subprocess.PIPE, text=True, **options)
    if done.returncode != 0:
        sys.exit(f"{command[0]} ended with {done.returncode}")
    return done.stdout


def has_header(compiler, header, *options):
    command = [*compiler, *options, "-E", "-include", header, "-x", "c" if compiler is C else "c++", os.devnull]
    return subprocess.run(command, capture_output=True).returncode == 0


def has_java():
    return shutil.which("javac") is not None and JAR.exists()


CPP_HEADERS = "-I/usr/include/ZXing"
PEERS = [
    Peer("zxing_cpp", "zxing-cpp", ["libzxing-dev"], lambda: has_header(CPP, "ReadBarcode.h", "-DZX_USE_UTF8", CPP_HEADERS),
         [*CPP, CPP_HEADERS, "-o", BUILD / "zxing_cpp", SOURCES / "zxing_cpp.cpp", *SHARED, "-lZXing"], [BUILD / "zxing_cpp"]),
    Peer("zxing_java", "ZXing (Java)", ["libzxing-core-java", "default-jdk-headless"], has_java,
         ["javac", "-cp", JAR, "-d", BUILD, SOURCES / "ZxingJava.java"], ["java", "-cp", f"{JAR}:{BUILD}", "ZxingJava"]),
    Peer("zint", "libzint", ["libzint-dev"], lambda: has_header(C, "zint.h"),
         [*C, "-o", BUILD / "zint", SOURCES / "zint.c", *SHARED, "-lzint"], [BUILD / "zint"]),
]


def build_shared():
    """The library's program, and what it shares with the peers'."""
    if not ARCHIVE.exists():
        sys.exit(f"{ARCHIVE.relative_to(ROOT)} is missing (rt lib in crates/aztec_c)")
    BUILD.mkdir(parents=True, exist_ok=True)
    for made in SHARED:
        said(*C, "-c", "-o", made, SOURCES / f"{made.stem}.c")
    said(*C, "-o", BUILD / "ours", SOURCES / "ours.c", *SHARED, ARCHIVE)


def build_peers():
    """Answers the peers that could be built."""
    built = []
    for peer in PEERS:
        if peer.there():
            said(*peer.build)
            built.append(peer)
        else:
            print(f"{peer.title} is left out: its packages are missing (Debian: {' '.join(peer.packages)})")
    return built


def build_harness():
    """A harness apart from the one that is otherwise used, with libfec where that is there."""
    features = ["--features", "libfec"] if has_header(C, "fec.h") else []
    if not features:
        print("libfec is left out: its package is missing (Debian: libfec-dev)")
    said("cargo", "build", "--release", "--offline", "--quiet", *features, "--target-dir", BUILD / "harness", cwd=ROOT / "harness")


def draw_cases():
    """A fresh folder of symbols; answers their names."""
    shutil.rmtree(CASES, ignore_errors=True)
    said(HARNESS, "draw-timed", CASES)
    return [line.split()[0] for line in (CASES / "list.txt").read_text().splitlines()]


def measured(*command):
    """The lines of a program, by what was done and the name of the case."""
    lines = {}
    for line in said(*command, CASES).splitlines():
        what, name, fast, slow, outcome = line.split()
        lines[what, name] = Line(float(fast), float(slow), outcome)
    return lines


def in_turns(programs):
    """The lines of each program, over all its turns. An outcome that isn't right in one turn stays."""
    results = [{} for _ in programs]
    for _ in range(TURNS):
        for program, lines in zip(programs, results):
            for key, line in measured(*program).items():
                lines[key] = together(lines.get(key, line), line)
    return results


def together(one, other):
    bad = [line.note for line in (one, other) if line.note in ("wrong", "none")]
    return Line(min(one.fast, other.fast), max(one.slow, other.slow), bad[0] if bad else other.note)


def judge_made(peer, lines):
    """Puts what our reader says of a maker's symbols in the place of the outcome `made`."""
    for line in said(BUILD / "ours", CASES, "--judge", peer.name).splitlines():
        _, name, shape, outcome = line.split()
        marks = [shape] * (shape != name) + [outcome] * (outcome != "right")
        lines["make", name] = lines["make", name]._replace(note=", ".join(marks) or "right")


def rounded(number):
    """Three figures, or whole numbers where those have more."""
    return f"{number:,.0f}" if number >= 100 else f"{number:.3g}"


def span(line):
    return "–" if line is None else f"{rounded(line.fast)} to {rounded(line.slow)}"


def cell(line):
    mark = "" if line is None or line.note == "right" else f" ({line.note})"
    return span(line) + mark


def ratio(ours, theirs):
    return "–" if ours is None or theirs is None else f"{ours.fast / theirs.fast:.2f}"


def print_table(head, rows):
    print(f"| {' | '.join(head)} |")
    print(f"|{'---|' * len(head)}")
    for row in rows:
        print(f"| {' | '.join(row)} |")
    print()


def print_beside(what, names, ours, theirs):
    """A table of what was read or made, with a ratio beside each peer that does it."""
    peers = [(peer, lines) for peer, lines in theirs if any(key[0] == what for key in lines)]
    head = ["Case", "ours, µs"]
    for peer, _ in peers:
        head += [f"{peer.title}, µs", "ours/it"]
    rows = []
    for name in names:
        mine = ours.get((what, name))
        row = [name, cell(mine)]
        for _, lines in peers:
            row += [cell(lines.get((what, name))), ratio(mine, lines.get((what, name)))]
        if mine:
            rows.append(row)
    print_table(head, rows)


def kind(outcome):
    """Another shape than ours is lawful, so it counts apart."""
    faults = [fault for fault in ("wrong", "none") if outcome.endswith(fault)]
    return faults[0] if faults else "right" if outcome == "right" else "right in another shape"


def print_outcomes(title, lines):
    """How many a program read and made, and how."""
    for what in ("read", "make"):
        counts = collections.Counter(kind(line.note) for key, line in lines.items() if key[0] == what)
        if counts:
            print(f"{title}, {what}: " + ", ".join(f"{count} {outcome}" for outcome, count in counts.items()))


def benched(command):
    """The harness's rows over all turns: under each title, the lines `[label] fastest X, slowest Y [unit]` by their label."""
    rows, others = {}, set()
    for _ in range(TURNS):
        title = None
        for line in said(HARNESS, command).splitlines():
            found = re.match(r"\s+(.*?)\s*fastest ([\d.]+), slowest ([\d.]+) ?(.*?)(?: \(|$)", line)
            if not line.startswith(" "):
                title = line
            elif found:
                one = Line(float(found[2]), float(found[3]), found[4])
                row = rows.setdefault(title, {})
                row[found[1]] = together(row.get(found[1], one), one)
            else:
                others.add(f"{title}: {line.strip()}")
    print("".join(f"{line}\n" for line in sorted(others)), end="")
    return rows


def print_corrector():
    """The harness's own bench, which times libfec in turns with the corrector."""
    rows = []
    for title, lines in benched("bench").items():
        ours, theirs = lines.get("library"), lines.get("libfec")
        rows.append([title, ours.note, span(ours), span(theirs), ratio(ours, theirs)])
    print_table(["Blocks", "unit", "ours", "libfec", "ours/it"], rows)


def shape_times():
    """The library's times in every shape it makes, with bytes, D and K, and in every shape it reads, with the side."""
    made, read = {}, {}
    for title, lines in benched("bench-encode").items():
        if found := re.match(r"mixed text: (\d+) bytes, 23 percent, (\w+), D (\d+), K (\d+)", title):
            made[found[2]] = (found[1], found[3], found[4], lines[""])
    for title, lines in benched("bench-decode").items():
        if found := re.match(r"(\w+), clean, mixed text: side (\d+)", title):
            read[found[1]] = (found[2], lines[""])
    return made, read


def print_shapes():
    made, read = shape_times()
    rows = []
    for name, (side, reading) in read.items():
        length, data, checks, making = made.get(name, ("–", "–", "–", None))
        rows.append([name, side, length, data, checks, span(reading), span(making)])
    print_table(["Shape", "side", "bytes", "D", "K", "read, µs", "made, µs"], rows)


def print_machine(peers):
    cpu = re.search(r"model name\s*: (.*)", pathlib.Path("/proc/cpuinfo").read_text())
    load = ", ".join(f"{number:.2f}" for number in os.getloadavg())
    print(f"{cpu[1] if cpu else 'unknown processor'}, {os.cpu_count()} cores; load {load} before the run")
    packages = [peer.packages[0] for peer in peers] + ["libfec-dev"]
    versions = subprocess.run(["dpkg-query", "-W", "-f", "${Package} ${Version}\n", *packages], capture_output=True, text=True)
    print(", ".join(versions.stdout.splitlines()) + "\n")


def compare():
    build_shared()
    build_harness()
    peers = build_peers()
    names = draw_cases()
    print_machine(peers)
    print_corrector()
    ours, *lines = in_turns([[BUILD / "ours"], *(peer.run for peer in peers)])
    theirs = list(zip(peers, lines))
    for peer, lines in theirs:
        judge_made(peer, lines)
    for what in ("read", "make"):
        print_beside(what, names, ours, theirs)
    print_outcomes("ours", ours)
    for peer, lines in theirs:
        print_outcomes(peer.title, lines)
    print()
    print_shapes()
    return 0 if all(line.note == "right" for line in ours.values()) else 1


def main(arguments):
    if arguments:
        sys.exit(__doc__)
    return compare()


if __name__ == "__main__":
    sys.exit(main(sys.argv[1:]))
