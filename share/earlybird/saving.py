"""Runs `save` where somebody watches: saving.py PROGRAM save WORDS. Lines and the image pass through as they are; at the end one line on
standard error says how many messages were saved, and how many lines were refused. It ends as the program does."""
import os
import signal
import subprocess
import sys
import threading

PIECE = 1 << 18
HEAD = 20


class Lines:
    """Counts the lines of pieces that aren't blank, as the program does: a blank line is empty but for a CR at its end."""

    def __init__(self):
        self.count = 0
        self._open = b""

    def take(self, piece):
        """Counts the lines that end in this piece. Of a line that goes on no more than two bytes are kept."""
        *lines, rest = piece.split(b"\n")
        if lines:
            lines[0] = self._open + lines[0]
            self.count += sum(line not in (b"", b"\r") for line in lines)
            self._open = rest[:2]
        else:
            self._open = (self._open + rest)[:2]

    def end(self):
        """Counts a last line without an end."""
        self.count += self._open not in (b"", b"\r")


class Documents:
    """Counts the documents of an image in pieces (docs/FORMATS.md), as its parts begin."""

    def __init__(self):
        self.count = 0
        self._rest = b""
        self._skip = HEAD
        self._terms = 0

    def take(self, piece):
        """Counts the documents whose head ends in this piece. What waits for its end is never more than 11 bytes."""
        data = self._rest + piece
        place, end = self._skip, len(data)
        while True:
            if self._terms:
                if place + 2 > end:
                    break
                place += 2 + (data[place] << 8 | data[place + 1])
                self._terms -= 1
            elif place + 11 > end or not data[place]:
                break
            else:
                self._terms = data[place + 9] << 8 | data[place + 10]
                self.count += 1
                place += 11
        self._rest = data[place:]
        self._skip = max(0, place - end)


def feed(program, lines, fault):
    """Hands standard input on to the program."""
    try:
        while True:
            piece = os.read(0, PIECE)
            if not piece:
                break
            lines.take(piece)
            program.stdin.write(piece)
            program.stdin.flush()
        lines.end()
    except BrokenPipeError:
        pass
    except OSError as raised:
        fault.append(raised)
    try:
        program.stdin.close()
    except OSError:
        pass


def drain(program, documents):
    """Hands the image on; what it raised where it couldn't be written, and then the program is ended."""
    while True:
        piece = os.read(program.stdout.fileno(), PIECE)
        if not piece:
            return None
        documents.take(piece)
        left = memoryview(piece)
        try:
            while left:
                left = left[os.write(1, left):]
        except OSError as raised:
            program.kill()
            return raised


def told(saved, refused):
    """The line at the end."""
    lines = "no line was refused" if not refused else "1 line was refused" if refused == 1 else "%d lines were refused" % refused
    which = "; earlybird run with the same lines says which, and why" if refused else ""
    return "earlybird: %d %s saved, %s%s" % (saved, "message was" if saved == 1 else "messages were", lines, which)


def main(words):
    """Its status is the program's."""
    # (Ctrl-C reaches the program too, and it ends by it)
    signal.signal(signal.SIGINT, signal.SIG_IGN)
    undo = lambda: signal.signal(signal.SIGINT, signal.SIG_DFL)
    program = subprocess.Popen(words, stdin=subprocess.PIPE, stdout=subprocess.PIPE, preexec_fn=undo)
    for each in (signal.SIGTERM, signal.SIGHUP):
        signal.signal(each, lambda number, _: program.send_signal(number))
    lines, documents, faults = Lines(), Documents(), []
    feeding = threading.Thread(target=feed, args=(program, lines, faults), daemon=True)
    feeding.start()
    unwritten = drain(program, documents)
    status = program.wait()
    if unwritten is not None:
        if not isinstance(unwritten, BrokenPipeError):
            print("earlybird: write fault", file=sys.stderr)
        return 4
    if status < 0:
        signal.signal(-status, signal.SIG_DFL)
        os.kill(os.getpid(), -status)
    if faults:
        print("earlybird: read fault", file=sys.stderr)
        return 3
    if status in (0, 1):
        print(told(documents.count, lines.count - documents.count), file=sys.stderr)
    return status


if __name__ == "__main__":
    sys.exit(main(sys.argv[1:]))
