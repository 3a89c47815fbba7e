"""Functions that the checks in Python share, as those in common.sh."""
import os
import re
import shutil
import subprocess
import sys

TOP = os.path.join(os.path.dirname(os.path.abspath(__file__)), "..")
CHECK = os.path.basename(sys.argv[0])
# as in common.sh
os.environ.setdefault("UM_LOCALE", next((os.environ[name] for name in ("LC_ALL", "LC_CTYPE", "LANG") if os.environ.get(name)), ""))
os.environ["LC_ALL"] = "C.UTF-8"


def skip(part, reason):
    """Tells that a part of the check is left out; checks/run counts such lines, and checks/may_skip lists some."""
    print(f"{CHECK}: skipped: {part}: {reason}", flush=True)


def skip_all(reason):
    """Ends a check that tested nothing."""
    skip("everything", reason)
    sys.exit(77)


def is_asked(part):
    """Whether a part of a check is to run: if UM_PART is set, only those whose names it matches, as `runs` of common.sh has it."""
    return bool(re.search(os.environ.get("UM_PART", ""), part))


def needs(*tools):
    for tool in tools:
        if not shutil.which(tool):
            skip_all(f"no {tool} here")


def invocations():
    """The lines of checks/invocations, as lists of words."""
    with open(os.path.join(TOP, "checks", "invocations"), encoding="utf-8") as file:
        return [line.split() for line in file if not line.startswith("#")]


def lack_of_program():
    """Why ./um starts no program here, or nothing."""
    done = subprocess.run([os.path.join(TOP, "um"), "make", "1", "0"], stdin=subprocess.DEVNULL, capture_output=True, text=True,
                          check=False)
    said = done.stderr.strip().removeprefix("um: ").split(", ")[0].split(": ")[0]
    return f"no program here: {said}" if done.returncode == 127 else ""


def needs_program():
    reason = lack_of_program()
    if reason:
        skip_all(reason)
