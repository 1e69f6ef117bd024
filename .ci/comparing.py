"""Comparisons of a check, counted: for the checks of the console, the cluster, the prompt over logs, and what they share."""
import time

PASSED, FAILED = [], []


def check(name, want, got):
    """Counts a comparison, and shows one that fails."""
    if want == got:
        PASSED.append(name)
    else:
        FAILED.append(name)
        print("FAILED: %s\n  want %.500r\n  got  %.500r" % (name, want, got), flush=True)


def wait_for(want, ask, seconds=30):
    """Asks until this is the answer, and gives the last one."""
    end = time.monotonic() + seconds
    while True:
        got = ask()
        if got == want or time.monotonic() > end:
            return got
        time.sleep(0.05)
