"""Watches with a name and a threshold, and what comes of one that is reached: a line in a file, a command that gets it, and the page.
The command and the file are words of the console's command line alone: what a page sends runs nothing."""
import asyncio
import collections
import json
import os
import shlex
import signal
import sys
import time

from earlybird_logs.message import read
from earlybird_logs.times import told

from .figures import Seconds

# a message that is older than its watch's time and this number of seconds raises no alarm: a file that is read anew isn't news
SLACK = 60
# seconds for a command, and how many run at once
PATIENCE = 30
COMMANDS = 4
# characters of the newest message in an alarm
SHOWN = 500


class Watch:
    """A standing query; an alarm where `most` messages (0: never) came within its seconds, at most once in that time."""

    def __init__(self, number, query, name, most, seconds):
        self.number = number
        self.query = query
        self.name = name or query
        self.most = most
        self.seconds = seconds
        self.counts = Seconds()
        self.met = 0
        self.alarms = 0
        self.last = None
        # (second, how many came in it), and their sum
        self._times = collections.deque()
        self._sum = 0

    def add(self, found, now):
        """Counts messages at this second since 1970; whether there is an alarm."""
        self.counts.add(len(found))
        self.met += len(found)
        if not self.most:
            return False
        fresh = sum(each.at >= (now - self.seconds - SLACK) * 1000 for each in found)
        if fresh:
            second, before = self._times.pop() if self._times and self._times[-1][0] == int(now) else (int(now), 0)
            self._times.append((second, before + fresh))
            self._sum += fresh
        while self._times and self._times[0][0] < now - self.seconds:
            self._sum -= self._times.popleft()[1]
        if self._sum < self.most or self.last and now - self.last < self.seconds:
            return False
        self.last, self.alarms = now, self.alarms + 1
        return True

    def told(self):
        """For JSON."""
        return {"number": self.number, "query": self.query, "name": self.name, "most": self.most, "seconds": self.seconds, "counts": self.counts.counts(),
                "met": self.met, "alarms": self.alarms, "last": self.last and int(self.last * 1000)}


class Alerts:
    """The ones that tell of alarms: a file to which a line of JSON is added, and a command that gets it on its standard input."""

    def __init__(self, path=None, command=None):
        self._path = path
        self._command = shlex.split(command) if command else None
        self._running = set()
        self.failed = 0

    def meet(self, watch, found, sources):
        """Counts messages that met a watch, and tells where that is an alarm."""
        now = time.time()
        if not watch.add(found, now) or not (self._path or self._command):
            return
        newest = found[-1]
        said = {"watch": watch.name, "query": watch.query, "time": told(now * 1000), "threshold": watch.most, "seconds": watch.seconds,
                "source": sources[newest.source], "newest": read(newest.raw, now * 1000).text[:SHOWN]}
        line = json.dumps(said, ensure_ascii=False).encode("utf-8", "replace") + b"\n"
        if self._path:
            self._begin(asyncio.get_running_loop().run_in_executor(None, self._write, line))
        if self._command:
            if len(self._running) < COMMANDS:
                self._begin(self._run(line))
            else:
                self._fail("--alert-command: %d run, so it isn't run for %s" % (COMMANDS, watch.name))

    def _begin(self, work):
        task = asyncio.ensure_future(work)
        self._running.add(task)
        task.add_done_callback(self._running.discard)

    def _fail(self, what):
        self.failed += 1
        print("earlybird-console: %s" % what, file=sys.stderr, flush=True)

    def _write(self, line):
        """Adds a line to the file. (In a thread: a file can be on a disk that keeps it waiting. A pipe that nobody reads keeps nothing.)"""
        try:
            descriptor = os.open(self._path, os.O_WRONLY | os.O_APPEND | os.O_CREAT | os.O_NONBLOCK, 0o644)
            try:
                if os.write(descriptor, line) < len(line):
                    raise OSError("it took only some of a line")
            finally:
                os.close(descriptor)
        except OSError as fault:
            self._fail("--alert-file: %s" % fault)

    async def _run(self, line):
        """Runs the command with the alarm on its standard input."""
        try:
            process = await asyncio.create_subprocess_exec(*self._command, stdin=asyncio.subprocess.PIPE, stdout=asyncio.subprocess.DEVNULL, start_new_session=True)
        except OSError as fault:
            return self._fail("--alert-command: %s" % fault)
        try:
            await asyncio.wait_for(process.communicate(line), PATIENCE)
            if process.returncode:
                self._fail("--alert-command ended with the status %d" % process.returncode)
        except asyncio.TimeoutError:
            self._fail("--alert-command took more than %d seconds and was ended" % PATIENCE)
        finally:
            if process.returncode is None:
                os.killpg(process.pid, signal.SIGKILL)
                await process.wait()

    async def end(self):
        """Ends the commands that still run."""
        for task in self._running:
            task.cancel()
        await asyncio.gather(*self._running, return_exceptions=True)
