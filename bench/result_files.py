"""What the scripts here leave: results as JSON in bench/results/, named by what they are of, by the date and by the commit."""
import datetime
import json
import os
import subprocess

from corpora import ROOT


def commit():
    done = subprocess.run(["git", "-C", ROOT, "rev-parse", "HEAD"], stdout=subprocess.PIPE, stderr=subprocess.DEVNULL)
    return done.stdout.decode().strip()


def begun(**said):
    """A result before its figures: the date, the commit, and what else is said of it."""
    return {"date": datetime.date.today().isoformat(), "commit": commit(), **said}


def takes_files(parser, does):
    """Lets a script be told where its result goes, and that it only shows one that there is."""
    parser.add_argument("--out", metavar="FILE", help="where the result goes in place of bench/results/")
    parser.add_argument("--table", metavar="FILE", help="print this result as the tables of docs/PERFORMANCE.md, and %s nothing" % does)


def read(path):
    with open(path, encoding="utf-8") as file:
        return json.load(file)


def keep(told, of, path=None):
    """Writes a result, to bench/results/ where no path is given."""
    path = path or os.path.join(ROOT, "bench", "results", "%s%s-%s.json" % (of, told["date"], told["commit"][:7]))
    os.makedirs(os.path.dirname(os.path.abspath(path)), exist_ok=True)
    with open(path, "w", encoding="utf-8") as file:
        json.dump(told, file, indent=1)
        file.write("\n")
