"""What the words of the command line do."""
import asyncio
import heapq
import json
import os
import select
import signal
import sys
import time
from collections import deque

from . import image, machine, names, status
from .entries import documents_of, entry_key
from .life import ask_all
from .lines import blocks_of
from .program import ProgramEnded, fault_of
from .router import ENTRY, LOST, OtherInput, Router
from .supervisor import supervise
from .words import ROOT
from .worker import Worker

START = 30.0  # seconds in which workers have to show that they live


def say(text):
    """A line on standard error."""
    print("earlybird-cluster: " + text, file=sys.stderr, flush=True)


def url_of(words):
    """Where Redis is."""
    return words.redis or "unix://" + machine.socket_of(words.folder)


def progress():
    """What tells of long work on a terminal, and nothing where standard error is no terminal."""
    if not sys.stderr.isatty():
        return None
    begun, shown = time.monotonic(), [0.0]

    def tell(number):
        now = time.monotonic()
        if now - shown[0] > 0.5:
            shown[0] = now
            print("\r%d lines, %d a second " % (number, number / max(now - begun, 0.001)), end="", file=sys.stderr, flush=True)

    return tell


def is_json(text):
    """Whether a text is a JSON value, and so not cut off."""
    try:
        json.loads(text)
    except (ValueError, RecursionError):
        return False
    return True


def input_blocks(most, cut=None):
    """Standard input in blocks of whole lines, of at most `most` bytes where its lines aren't longer, each line with its LF; an
    empty block wherever no more is there at the moment. What was printed is written out before more is waited for. A last line without
    LF is a line, too; but with `cut` only where it is JSON, else that is called."""
    pieces, held = [], 0
    while True:
        if not select.select([0], [], [], 0)[0]:
            yield b""
        sys.stdout.buffer.flush()
        more = os.read(0, 1 << 20)
        if not more:
            break
        last = more.rfind(b"\n") + 1
        if not last:
            pieces.append(more)  # a long line
            held += len(more)
            if held > 4 * most:
                pieces, held = [b"".join(pieces)[:most + 1]], most + 1  # it is refused for its length, whatever else it has
            continue
        pieces.append(more[:last])
        yield from blocks_of(b"".join(pieces), most)
        pieces, held = [more[last:]], len(more) - last
    rest = b"".join(pieces)
    if rest and cut and not is_json(rest):
        cut()
    elif rest:
        yield from blocks_of(rest + b"\n", most)


def print_told(tolds):
    """Prints what became of lines that aren't simply accepted; gives how many are refused, and how many pending."""
    counts = {b"refused": 0, b"pending": 0}
    for told in tolds:
        counts[told.what] += 1
        sys.stdout.buffer.write(b"%d %b: %b\n" % told)
    sys.stdout.buffer.flush()
    return counts[b"refused"], counts[b"pending"]


def do_add(words, redis):
    """`add`."""
    router = Router(redis, words.name, words.patience)
    tell, cut = progress(), []
    again = "add the same input again with --client %s: nothing is added twice"
    try:
        refused, pending = print_told(router.add_blocks(input_blocks(ENTRY, words.client and (lambda: cut.append(True))), not words.no_wait, tell, words.client, words.first))
    except LOST as lost:
        sys.stdout.buffer.flush()
        say("Redis: %s; up to line %d all is accepted or refused; %s" % (lost, router.settled, again % router.adder.name))
        return 3
    except OtherInput as other:
        say(str(other))
        return 2
    except KeyboardInterrupt:
        say("up to line %d all is accepted or refused; %s" % (router.settled, again % router.adder.name))
        return 130
    finally:
        if tell:
            print("", file=sys.stderr)
    if cut:
        say("the last line has no end and isn't JSON, so it isn't added: the input was cut off")
    if router.adder.known:
        say("%d lines were in the logs%s" % (router.adder.known, ", and of %d nobody knows any more which were refused" % router.adder.unknown
                                            if router.adder.unknown else ""))
    if pending:
        say("%d lines are pending; to hear what became of them, %s" % (pending, again % router.adder.name))
    return 1 if refused or pending or cut else 0


def do_ask(words, redis):
    """`ask`: batches of queries are under way, and answers come in the order of the lines."""
    router = Router(redis, words.name, words.patience)
    numbers, refused, out = deque(), False, []

    def lines():
        number = 0
        for block in input_blocks(ENTRY):
            for line in block.split(b"\n")[:-1]:
                number += 1
                if line != b"":
                    numbers.append(number)
                    yield line
            if not block:
                yield None

    for text, missing in router.ask_many(lines(), cut=True):
        if text is None:
            text = b"refused: no partition answered"
        elif missing and not text.startswith(b"refused: "):
            head, colon, rest = text.partition(b":")
            text = head + b" missing " + b",".join(b"%d" % each for each in missing) + colon + rest
        refused = refused or text.startswith(b"refused: ")
        out.append(b"%d %s\n" % (numbers.popleft(), text))
        if len(out) >= 64 or not numbers:
            sys.stdout.buffer.write(b"".join(out))
            out.clear()
            if not numbers:
                sys.stdout.buffer.flush()
    sys.stdout.buffer.write(b"".join(out))
    sys.stdout.buffer.flush()
    return 1 if refused else 0


def do_status(words, redis):
    """`status`."""
    found = status.gather(redis, words.name)
    if words.json:
        print(json.dumps(found))
    else:
        sys.stdout.write(status.prometheus(found) if words.prometheus else status.table(found))
    return 0 if status.whole(found) else 1


def start_workers(words, redis, workers, replicas):
    """Has a supervisor run these workers, and waits until they live. Gives those that don't."""
    before = machine.read_wanted(words.folder, words.name) or {}
    machine.write_wanted(words.folder, words.name, {
        "fsync": before.get("fsync") if words.redis else getattr(words, "fsync", before.get("fsync")), "program": words.program,
        "images": getattr(words, "images", None) or before.get("images"), "workers": workers})
    machine.stop_others(words.folder, words.name, [machine.worker_of(words.name, *each) for each in workers])
    machine.start_supervisor(words.folder, url_of(words), words.name)
    config = names.read_config(redis, words.name)
    config = config._replace(parts=len(config.tags), replicas=replicas)
    until = time.monotonic() + START
    while True:
        said = ask_all(redis, config)
        dead = [each for each in workers if not any(said.get(tuple(each)) or [])]
        if not dead or time.monotonic() > until:
            return dead
        time.sleep(0.05)


def do_up(words):
    """`up`."""
    os.makedirs(words.folder, mode=0o700, exist_ok=True)
    if not words.redis:
        machine.await_redis(words.folder, machine.start_redis(words.folder, words.fsync))
    redis = machine.connect(url_of(words))
    old = machine.older_redis(redis)
    if old:
        say("this Redis is version %s; 7 or later is needed" % old)
        return 2
    program = words.words or names.words_of(redis, words.name)
    # it is built where it isn't, and its words are tried before workers start with them
    fault = fault_of([words.program, *program])
    if fault:
        say("'%s %s' %s, so no worker is started" % (words.program, " ".join(program), fault))
        return 2
    names.write_config(redis, words.name, words.parts, program, words.retain, words.replicas, words.safe)
    config = names.read_config(redis, words.name)
    workers = [[part, replica] for part in range(config.parts) for replica in range(config.replicas)]
    before = [each for each in workers if machine.running(words.folder, machine.worker_of(words.name, *each)) is None]
    dead = start_workers(words, redis, workers, config.replicas)
    say("%d of %d workers started, %d alive; in %s" % (len(before), len(workers), len(workers) - len(dead), words.folder))
    return 1 if dead else 0


def do_down(words):
    """`down`."""
    ended = machine.stop_all(words.folder) if os.path.isdir(words.folder) else []
    say("ended: %s" % (", ".join(ended) or "nothing"))
    return 0


def do_serve(words):
    """`serve`."""
    sys.path.append(os.path.join(ROOT, "web"))
    from earlybird_web.guard import Guard, read_guarded

    from .service import serve

    try:
        host, port, token = read_guarded(words.listen, words.token_file)
    except ValueError as fault:
        say(str(fault))
        return 2
    try:
        asyncio.run(serve(url_of(words), words.name, words.patience, host, port, Guard(token, "this service")))
    except OSError as fault:
        say(str(fault))
        return 1
    return 0


def do_worker(words, redis):
    """`worker`."""
    signal.signal(signal.SIGTERM, lambda number, frame: sys.exit(0))
    worker = None
    while worker is None:
        try:
            worker = Worker(redis, words.name, words.partition, words.program, words.replica, words.images)
        except LOST as lost:
            say("partition %d: Redis: %s" % (words.partition, lost))
            time.sleep(1.0)
    try:
        worker.serve()
    except ProgramEnded as ended:
        worker.tell("the index program: %s" % ended)
        return 1
    finally:
        if worker.program is not None:
            worker.program.close()


def do_image(words, redis):
    """`image`."""
    try:
        made = image.make(redis, words.name, words.partition, words.program, words.images)
        print("%s: up to entry %s" % (made.path, made.last.decode()))
        if words.cut:
            print("partition %d: the log begins at entry %s now, %d were removed" % (
                words.partition, *(each.decode() if isinstance(each, bytes) else each for each in image.cut(redis, words.name, words.partition))))
    except (image.NoImage, OSError) as fault:
        say(str(fault))
        return 1
    return 0


def grow_to(words, redis):
    """`grow --to`: the workers of the new partitions start, then queries ask them, then documents go to them."""
    found = names.begin_growth(redis, words.name, words.to)
    fresh = [[part, replica] for part in range(found.parts, words.to) for replica in range(found.replicas)]
    before = machine.read_wanted(words.folder, words.name)
    dead = start_workers(words, redis, (before["workers"] if before else []) + [each for each in fresh if not before or each not in before["workers"]], found.replicas)
    if any(each in dead for each in fresh):
        say("the workers of the new partitions don't live; nothing was changed")
        return 1
    names.end_growth(redis, words.name, words.to, words.seal)
    say("%d partitions" % words.to)
    return 0


def do_grow(words, redis):
    """`grow`: the documents of all logs, in the order of their arrival, into another cluster, each once however often it is called."""
    if words.to:
        return grow_to(words, redis)
    found = names.read_config(redis, words.name)
    router = Router(redis, words.into, words.patience)

    def entries(part):
        last = "-"
        while True:
            there = redis.xrange(names.log(found.tags[part]), last, "+", count=16)
            for entry, fields in there:
                text = documents_of([word for field in fields.items() for word in field])
                if text:
                    yield entry_key(entry), text[0]
            if not there:
                return
            last = "(" + there[-1][0].decode()

    merged = (text for _, text in heapq.merge(*[entries(part) for part in range(found.parts)]))
    refused, pending = print_told(router.add_blocks(merged, True, progress(), "from-" + words.name))
    return 1 if refused or pending else 0


def main(words):
    """Runs the command that these words ask for; the result is its exit status: 0, 1 where a line is refused or pending or a worker is missing, 2 usage,
    3 Redis, 4 where the output can't be written."""
    try:
        if words.command == "up":
            return do_up(words)
        if words.command == "down":
            return do_down(words)
        if words.command == "supervise":
            return supervise(words.folder, url_of(words), words.name)
        if words.command == "serve":
            return do_serve(words)
        redis = machine.connect(url_of(words))
        return {"add": do_add, "ask": do_ask, "status": do_status, "worker": do_worker, "image": do_image, "grow": do_grow}[words.command](words, redis)
    except names.NotSetUp as fault:
        say(str(fault))
        return 2
    except FileNotFoundError as fault:
        say("%s: %s" % (fault.filename, fault.strerror))
        return 2
    except LOST as lost:
        if not words.redis and not os.path.exists(machine.socket_of(words.folder)):
            say("no cluster runs in %s: 'earlybird-cluster up N' starts one" % words.folder)
        else:
            say("Redis: %s" % lost)
        return 3
    except BrokenPipeError:
        return 4
