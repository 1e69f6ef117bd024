"""Files and pipes that grow."""
import contextlib
import io
import os
import threading

from comparing import check, wait_for
from earlybird_live.prompt import MOST_WATCHED, Prompt, follow, new_matches

from .loads import lines_at, loaded, write


def files(folder):
    """A line comes once it is whole; a file that another replaces, that is cut, or that goes is followed."""
    path = write(os.path.join(folder, "grow.log"), "w1 a\nw1 ha")
    with loaded([path], follow=True) as loader:
        found = lambda query="w1": loader.ask(query, 9)[1]
        check("growing: half a line waits", [1], found())
        write(path, "lf\nw2\n", "ab")
        check("growing: it comes whole", [2, 1], wait_for([2, 1], found))
        came, stop = follow(loader, "w1")
        os.rename(path, path + ".1")
        write(path + ".1", "w1 last of it", "ab")
        wait_for(True, lambda: loader.sources[0]._read == len("w1 a\nw1 half\nw2\nw1 last of it"))
        write(path, "w1 new file\n")
        check("growing: another file in its place, and the open line of the one before", [5, 4, 2, 1], wait_for([5, 4, 2, 1], found))
        check("growing: lines of both", [b"w1 half", b"w1 last of it", b"w1 new file"], lines_at(loader, [2, 4, 5]))
        got = []

        def new():
            while not came.empty():
                got.extend(came.get())
            return sorted(got)

        check("growing: new matches come", [4, 5], wait_for([4, 5], new))
        stop()
        write(path, "w1\n")
        check("growing: a file that became shorter", [6, 5, 4, 2, 1], wait_for([6, 5, 4, 2, 1], found))
        check("growing: a line that isn't there any more is not another one", [None, b"w1"], lines_at(loader, [5, 6]))
        os.remove(path)
        os.mkdir(path)
        write(os.path.join(folder, "grow.log", "x"), "")
        check("growing: a file that went, for a folder", ([6, 5, 4, 2, 1], None), (found(), loader.fault))
        os.remove(os.path.join(folder, "grow.log", "x"))
        os.rmdir(path)
        write(path, "w1 again\n")
        check("growing: it is there again", [7, 6, 5, 4, 2, 1], wait_for([7, 6, 5, 4, 2, 1], found))
        os.remove(path)


def pipes(folder):
    """A pipe that is followed is there at once, grows, and ends."""
    reading, writing = os.pipe()
    with loaded([], reading, follow=True) as loader:
        check("a pipe: nothing yet", (0, []), loader.ask("w1", 5))
        os.write(writing, b"w1 a\nw1 ")
        check("a pipe: whole lines", [1], wait_for([1], lambda: loader.ask("w1", 5)[1]))
        came, _ = follow(loader, "w1")
        got = []
        watching = threading.Thread(target=lambda: got.extend(it for ids in new_matches(came) for it in ids))
        watching.start()
        os.write(writing, b"b\nw2\n")
        wait_for([2], lambda: got[:])
        os.write(writing, b"w1 without an end")
        os.close(writing)
        watching.join(30)
        check("a pipe: what came to its end", [2, 4], got)
        check("a pipe: its last line", [4, 2, 1], loader.ask("w1", 5)[1])
        check("a pipe: its lines again", [b"w1 a", b"w1 b", b"w1 without an end"], lines_at(loader, [1, 2, 4]))


def watches(folder):
    """Each watch is one count, which is there without being asked for. One that is set again begins anew; their number is bounded, and they end."""
    path = write(os.path.join(folder, "watched.log"), "w1\n")
    with loaded([path], follow=True) as loader:
        prompt = Prompt(loader, None, 20, False, False)

        def typed(line):
            shown = io.StringIO()
            with contextlib.redirect_stdout(shown):
                prompt._take(line)
            return shown.getvalue()

        counts = lambda: {query: watch.count for query, watch in prompt._watches.items()}
        check("watches: lines from now on", "       0  w1\n", typed(":watch w1"))
        for number in range(40):
            write(path, "w1 a\nw2 b\nw1 c\n", "ab")
            wait_for(3 * number + 4, lambda: loader.blocks.next - 1)
        check("watches: added up while nobody asks", {"w1": 80}, wait_for({"w1": 80}, counts))
        check("watches: told", "      80  w1\n", typed(":watch"))
        check("watches: others beside", ("      80  w1\n       0  w2\n", 2), (typed(":watch w2"), len(loader.grown)))
        typed(":watch w2")
        check("watches: set again, it counts anew, and the one before has ended", ("       0  w1\n       0  w2\n", 2), (typed(":watch w1"), len(loader.grown)))
        write(path, "w1\nw2\nw2\n", "ab")
        check("watches: and each line once", {"w1": 1, "w2": 2}, wait_for({"w1": 1, "w2": 2}, counts))
        for number in range(3, MOST_WATCHED + 1):
            typed(":watch w%d" % number)
        check("watches: as many as may be", (100, 100), (len(counts()), len(loader.grown)))
        check("watches: one more is refused", "100 queries are watched, and no more can be: end one with :unwatch QUERY", typed(":watch more").splitlines()[0])
        check("watches: which changes nothing", (100, 100, False), (len(counts()), len(loader.grown), "more" in counts()))
        check("watches: one of them may be set again", (100, 100), (len(typed(":watch w7").splitlines()), len(loader.grown)))
        check("watches: no such one", "more isn't watched\n", typed(":unwatch more"))
        check("watches: one ends", ("", 99, False), (typed(":unwatch w2"), len(loader.grown), "w2" in counts()))
        check("watches: then there is room", ("       0  more", 100), (typed(":watch more").splitlines()[-1], len(loader.grown)))
        check("watches: all end", ("", {}, []), (typed(":unwatch"), counts(), loader.grown))
        os.remove(path)
