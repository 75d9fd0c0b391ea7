"""What the scripts that call other programs share."""
import shutil
import sys


def all_there(*programs):
    """Whether each program can be run; what is missing is named on standard error with how to get it."""
    missing = [(program, how) for program, how in programs if not shutil.which(program)]
    for program, how in missing:
        print(f"{program} is missing ({how})", file=sys.stderr)
    return not missing
