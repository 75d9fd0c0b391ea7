#!/usr/bin/env python3
"""Times this tree's corrector, reader and maker beside another revision's: python3 scripts/compare_revisions.py REV

Builds the archive of REV in a folder of its own among the temporary files (a tree of Rattle inside this one would stop `rt ci`), puts
`before_` in front of its names, links it beside this tree's into one harness, and has the two take turns on the same inputs. Prints tables for a Markdown document: the fastest and the slowest of eleven runs of each, the ratio
of the fastest, and the median of the turns' ratios; beside libfec's times where that is there (Debian: libfec-dev). The reader has a table
of grids that it reads and one of grids that it refuses. An answer that isn't the other's, or isn't as due, is printed and ends the script
with 1. REV's archive is kept for the next time. What REV has like this tree isn't proved again where a check on this machine kept it; the
rest takes its time. REV has to be written for the kit that is here, and is older than this tree, or has the same interface: the harness
calls both by this tree's.
"""
import os
import pathlib
import shutil
import subprocess
import sys
import tempfile

# Beside out/ nothing here but target/ shall be written to.
sys.dont_write_bytecode = True
import bench_peers
import programs

ROOT = pathlib.Path(__file__).resolve().parent.parent
BUILD = ROOT / "target/compare"
BEFORE = pathlib.Path(tempfile.gettempdir()) / "aztec-compare"
FUNCTIONS = {"aztec_correct", "aztec_encode", "aztec_decode"}
PROGRAMS = [("git", "Debian: git"), ("tar", "Debian: tar"), ("rt", "the Rattle kit"), ("nm", "Debian: binutils"),
            ("objcopy", "Debian: binutils"), ("cargo", "Rust")]


def said(*command, folder=ROOT, **options):
    """What a command writes; where it fails, that is shown and the script ends."""
    done = subprocess.run(command, cwd=folder, stdout=subprocess.PIPE, text=True, **options)
    if done.returncode != 0:
        sys.exit(f"{done.stdout}{command[0]} ended with {done.returncode}")
    return done.stdout


def export(commit, folder):
    """The files of a commit, whole or not at all."""
    if folder.exists():
        return
    begun = folder.with_name(folder.name + ".begun")
    shutil.rmtree(begun, ignore_errors=True)
    begun.mkdir(parents=True)
    said("git", "archive", "--output", begun / "files.tar", commit)
    said("tar", "-xf", "files.tar", folder=begun)
    (begun / "files.tar").unlink()
    begun.rename(folder)


def static_archive(folder):
    crate = folder / "crates/aztec_c"
    print(f"rt lib in {crate}", file=sys.stderr)
    said("rt", "lib", folder=crate, stderr=subprocess.STDOUT)
    return crate / "out/libaztec_c.a"


def rename(archive, renamed):
    """Puts before_ in front of each global name that an archive defines; those that it takes from C's library stay."""
    lines = said("nm", "--extern-only", "--defined-only", archive).splitlines()
    names = {line.split()[-1] for line in lines if len(line.split()) == 3}
    if missing := FUNCTIONS - names:
        sys.exit(f"that revision has no {', '.join(sorted(missing))}")
    pairs = renamed.with_suffix(".names")
    pairs.write_text("".join(f"{name} before_{name}\n" for name in sorted(names)))
    said("objcopy", f"--redefine-syms={pairs}", archive, renamed)


def build_before(commit, folder):
    """The renamed archive of a commit. It is made anew only where the kit is another than it was made with."""
    renamed, made_with = folder / "libaztec_before.a", folder / "kit.txt"
    kit = said("rt", "version")
    if made_with.exists() and made_with.read_text() == kit:
        return
    export(commit, folder)
    rename(static_archive(folder), renamed)
    made_with.write_text(kit)


def build_harness(folder):
    """A harness apart from the one that is otherwise used, with libfec where that is there."""
    has_libfec = bench_peers.has_header(bench_peers.C, "fec.h")
    if not has_libfec:
        print("libfec is left out: its package is missing (Debian: libfec-dev)")
    features = "revisions,libfec" if has_libfec else "revisions"
    places = {"AZTEC_BEFORE_DIR": str(folder)}
    command = ["cargo", "build", "--release", "--offline", "--quiet", "--features", features, "--target-dir", BUILD / "harness"]
    said(*command, folder=ROOT / "harness", env={**os.environ, **places})


def print_revisions(commit):
    title = ["git", "log", "-1", "--format=%h %s"]
    changed = " and what is not committed" if said("git", "status", "--porcelain", "crates") else ""
    print(f"before: {said(*title, commit)}now: {said(*title, 'HEAD').strip()}{changed}", flush=True)


def compare(revision):
    commit = said("git", "rev-parse", "--verify", f"{revision}^{{commit}}").strip()
    folder = BEFORE / commit[:12]
    build_before(commit, folder)
    static_archive(ROOT)
    build_harness(folder)
    bench_peers.print_machine([])
    print_revisions(commit)
    return subprocess.run([BUILD / "harness/release/harness", "bench-revisions"]).returncode


def main(arguments):
    if len(arguments) != 1 or arguments[0].startswith("-"):
        sys.exit(__doc__)
    return compare(arguments[0]) if programs.all_there(*PROGRAMS) else 2


if __name__ == "__main__":
    sys.exit(main(sys.argv[1:]))
