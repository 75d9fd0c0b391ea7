#!/usr/bin/env python3
"""Looks for a defect of LLVM in compiled files: python3 scripts/check_stack_probes.py FILE..

Where a function returns before it needs its stack frame, LLVM sets the frame up below that return; and where the frame is above
32 KiB it probes it in a loop that counts in r11, without asking whether r11 is in use by then. The proofs end above the compiler, so
this is looked for in what it wrote: no function may write r11 before the loop's `mov %rsp,%r11`. (docs/DECISIONS.md, "The compiler".)
"""
import re
import subprocess
import sys

FUNCTION = re.compile(r"^[0-9a-f]+ <(.+)>:$")
INSTRUCTION = re.compile(r"^\s+[0-9a-f]+:\s+(.+?)\s*(#.*)?$")
WRITES_R11 = re.compile(r"(,\s*%r11[dwb]?$)|^(pop|inc|dec|neg|not|set\w+)\s+%r11[dwb]?$")


def functions(path):
    lines = subprocess.run(["objdump", "-d", "--no-show-raw-insn", path], check=True, capture_output=True, text=True).stdout
    name, body = None, []
    for line in lines.splitlines():
        if found := FUNCTION.match(line):
            if name:
                yield name, body
            name, body = found.group(1), []
        elif found := INSTRUCTION.match(line):
            body.append(re.sub(r"\s+", " ", found.group(1)))
    if name:
        yield name, body


def main(paths):
    passed = failed = 0
    for path in paths:
        broken = []
        for name, body in functions(path):
            if "mov %rsp,%r11" in body:
                before = body[: body.index("mov %rsp,%r11")]
                if any(WRITES_R11.search(x) and not x.startswith(("cmp", "test")) for x in before):
                    broken.append(name)
        for name in broken:
            print(f"{path}: {name} loses r11 in its stack probe", file=sys.stderr)
        failed += bool(broken)
        passed += not broken
    print(f"{passed} passed, {failed} failed")
    return 1 if failed or not passed else 0


sys.exit(main(sys.argv[1:]))
