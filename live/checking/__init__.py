"""Checks of the prompt over logs."""
import signal
import tempfile

from comparing import FAILED, PASSED

from . import commands, growing, harmful, logs


def main(rounds):
    """All of them, in a folder of their own; gives the status."""
    # (a shell starts what it doesn't wait for with Ctrl-C ignored, and children take that over)
    signal.signal(signal.SIGINT, signal.default_int_handler)
    with tempfile.TemporaryDirectory(prefix="live ") as folder:
        logs.random_logs(folder, rounds)
        logs.dropped(folder)
        logs.json_lines(folder)
        growing.files(folder)
        growing.pipes(folder)
        growing.watches(folder)
        harmful.lines(folder)
        harmful.blocks(folder)
        harmful.queries(folder)
        commands.options(folder)
        commands.over_pipes(folder)
        commands.on_a_terminal(folder)
        commands.ended(folder)
        commands.at_once(folder)
    print("live: %d passed, %d failed" % (len(PASSED), len(FAILED)))
    return 1 if FAILED else 0
