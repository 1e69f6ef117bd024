"""Runs all checks: `check`."""
import argparse
import concurrent.futures
import shutil
import sys
import tempfile
import time

import earlybird_console  # noqa: F401 (it finds what it shares)
from comparing import FAILED, PASSED, check

from . import browser
from .counting import check_counts
from .hostile import check_hostile
from .machine import Machine, complaints
from .measure import measure
from .page import check_page
from .plain import check_plain
from .serving import Served, check_alarms, check_feed, check_pieces, check_sources, check_token, check_usage


def check_alone(folder):
    """What needs no process, and consoles of their own."""
    check_plain(folder)
    for each in (check_token, check_usage, check_feed, check_counts, check_sources, check_pieces, check_alarms):
        each(folder)


def check_served(folder):
    """One console through its life."""
    served = Served(folder)
    served.take()
    served.check_answers("taken")
    for each in (served.check_lines, served.check_fields, served.check_refusals, served.check_events, served.check_watches, served.check_many, served.check_limits,
                 served.check_slow_reader, served.check_killed_index, served.check_started_again, served.check_rotated):
        each()
    check("the console ends", (0, []), served.machine.end())


def main():
    """All checks, in a folder of their own."""
    parser = argparse.ArgumentParser(prog="check")
    parser.add_argument("--picture", metavar="FOLDER", help="where the pictures of docs/CONSOLE.md go")
    parser.add_argument("--figures", action="store_true", help="measures how many messages a second are taken, and checks nothing")
    asked = parser.parse_args()
    if asked.figures:
        return measure()
    begun, folder = time.monotonic(), tempfile.mkdtemp(prefix="earlybird-console-")
    try:
        with concurrent.futures.ThreadPoolExecutor(1) as beside:
            # (both wait for most of their time)
            hostile = beside.submit(check_hostile, folder)
            check_alone(folder)
            check_served(folder)
            if browser.is_here():
                check_page(folder, asked.picture)
            hostile.result()
        if not browser.is_here():
            print("console: chromium isn't here, so the page isn't checked (apt-get install chromium chromium-driver)")
        check("no console met what it doesn't know", [], complaints(folder))
    finally:
        for machine in list(Machine.running):
            machine.end()
        shutil.rmtree(folder, ignore_errors=True)
    print("console: %d passed, %d failed, in %.0f s" % (len(PASSED), len(FAILED), time.monotonic() - begun))
    return 1 if FAILED else 0


if __name__ == "__main__":
    sys.exit(main())
