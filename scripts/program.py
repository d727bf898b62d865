"""The program that the scripts beside this file run: where it lies, and whether it is `mptab`."""
import os
import pathlib
import subprocess

TOP = pathlib.Path(__file__).resolve().parent.parent
CRATE = TOP / "crates" / "mptab"
PROGRAM = CRATE / "out" / "mptab"
SMALL_IMAGE = CRATE / "data" / "small.img"


def refusal(program):
    """Why a program can't be run as `mptab`, in one line, and `None` where it can."""
    if not os.path.exists(program):
        return f"{program} isn't there" + (": ./mptab builds it" if pathlib.Path(program) == PROGRAM else "")
    try:
        done = subprocess.run([os.path.abspath(program), "show", SMALL_IMAGE], capture_output=True, timeout=10, check=False)
    except (OSError, subprocess.TimeoutExpired) as error:
        return f"{program} can't be run: {error.strerror if isinstance(error, OSError) else 'it takes more than 10 seconds'}"
    if done.returncode != 0 or done.stdout != (CRATE / "stdout").read_bytes():
        return f"{program} isn't mptab: to the small image it answers {done.stdout[:40]!r}, status {done.returncode}"
    return None
