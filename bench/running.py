"""What the scripts share that time a program from its first line on: it is started, and waits; then it is given its lines by a pipe,
beside the reading of what it prints."""
import contextlib
import fcntl
import os
import subprocess
import time

PIPE = 1 << 20


def waits_for_input(process):
    """Whether a process is in a read of its standard input, and that is a pipe (a launcher may read a file so)."""
    with open("/proc/%d/syscall" % process.pid, encoding="utf-8") as file:
        reads = file.read().split()[:2] == ["0", "0x0"]
    return reads and os.readlink("/proc/%d/fd/0" % process.pid).startswith("pipe:")


def wait_for_input(process):
    """Returns once a process waits for input. Ends where the process does."""
    while process.poll() is None:
        if waits_for_input(process):
            return
        time.sleep(0.001)
    raise SystemExit("%s ended before it read its input" % process.args[0])


def give(pipe, text, closes=False):
    """Writes all of a text into a pipe, and closes it where that is the last."""
    left = memoryview(text)
    while left:
        left = left[os.write(pipe, left[:1 << 18]):]
    if closes:
        os.close(pipe)


@contextlib.contextmanager
def started(command):
    """A process that waits for its first line, and the pipe that leads to it, which the caller closes. It is ended where the caller
    goes wrong."""
    reads, writes = os.pipe()
    with subprocess.Popen(command, stdin=reads, stdout=subprocess.PIPE) as process:
        os.close(reads)
        for pipe in (writes, process.stdout.fileno()):
            fcntl.fcntl(pipe, fcntl.F_SETPIPE_SZ, PIPE)
        try:
            wait_for_input(process)
            yield process, writes
        except BaseException:
            process.kill()
            raise
