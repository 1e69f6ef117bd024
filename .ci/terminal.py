"""Runs a command on a terminal of its own, for what it says to people."""
import os
import pty
import select
import signal
import subprocess
import time


class Terminal:
    """A command whose standard error is a terminal, and standard input and output too where no others are given."""

    def __init__(self, words, stdin=None, stdout=None, **how):
        self.master, slave = pty.openpty()
        self.shown = b""
        self._searched = 0
        end = lambda given: slave if given is None else given
        environment = {**os.environ, "TERM": "xterm", "COLUMNS": "100", **how.pop("env", {})}
        self.process = subprocess.Popen(words, stdin=end(stdin), stdout=end(stdout), stderr=slave, env=environment, start_new_session=True,
                                        preexec_fn=self._control(slave), **how)
        os.close(slave)

    @staticmethod
    def _control(slave):
        def control():
            # (its keys reach the command: Ctrl-C is a signal)
            import fcntl
            import termios
            fcntl.ioctl(slave, termios.TIOCSCTTY, 0)
        return control

    def _read(self, seconds):
        if not select.select([self.master], [], [], seconds)[0]:
            return None
        try:
            piece = os.read(self.master, 1 << 16)
        except OSError:
            piece = b""
        self.shown += piece
        return piece

    def type(self, text):
        """Types keys."""
        os.write(self.master, text)

    def wait_for(self, text, seconds=20):
        """Reads until this is shown behind what was waited for before; whether it came."""
        ends = time.monotonic() + seconds
        while True:
            at = self.shown.find(text, self._searched)
            if at >= 0:
                self._searched = at + len(text)
                return True
            if time.monotonic() > ends or self._read(0.1) == b"":
                return text in self.shown[self._searched:]

    def end(self, seconds=60):
        """Reads to the end. What was shown, as lines without CR, and how it ended."""
        ends = time.monotonic() + seconds
        while time.monotonic() < ends and self._read(0.1) != b"":
            pass
        try:
            self.process.wait(max(1, ends - time.monotonic()))
        except subprocess.TimeoutExpired:
            os.killpg(self.process.pid, signal.SIGKILL)
            self.process.wait()
        os.close(self.master)
        return self.shown.decode("utf-8", "replace").replace("\r\n", "\n"), self.process.returncode


def on_a_terminal(words, **how):
    """What a command shows on a terminal, and how it ends."""
    return Terminal(words, **how).end()
