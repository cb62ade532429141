#!/usr/bin/env python3
"""Makes clause files and times sat_tool on them, beside minisat where that is installed.

    bench.py make FOLDER             writes the files
    bench.py run FOLDER [SAT_TOOL]   prints a table of processor times in Markdown

The files are in the DIMACS format: random clauses of three literals, pigeons in too few holes, two
parity chains that contradict each other, and a counter unrolled step by step. Random numbers come
from fixed seeds, so the files are the same at each run.
"""

import pathlib
import random
import resource
import shutil
import subprocess
import sys

LIMIT = 120  # seconds on the clock for one file


class Clauses:
    """Clauses over variables 1, 2, .., in which gates are coded after Tseitin."""

    def __init__(self):
        self.vars = 0
        self.clauses = []

    def new(self):
        self.vars += 1
        return self.vars

    def add(self, *lits):
        self.clauses.append(lits)

    def xor(self, a, b):
        c = self.new()
        for signs in ((-1, 1, 1), (-1, -1, -1), (1, -1, 1), (1, 1, -1)):
            self.add(signs[0] * c, signs[1] * a, signs[2] * b)
        return c

    def both(self, a, b):
        c = self.new()
        self.add(-c, a)
        self.add(-c, b)
        self.add(c, -a, -b)
        return c

    def text(self):
        lines = [f"p cnf {self.vars} {len(self.clauses)}"]
        lines += [" ".join(map(str, (*clause, 0))) for clause in self.clauses]
        return "\n".join(lines) + "\n"


def random_clauses(count, seed):
    """Clauses of three literals on different variables, 4.26 for each variable."""
    rng = random.Random(seed)
    cnf = Clauses()
    cnf.vars = count
    for _ in range(round(4.26 * count)):
        chosen = rng.sample(range(1, count + 1), 3)
        cnf.add(*(var if rng.random() < 0.5 else -var for var in chosen))
    return cnf


def pigeons(count, holes):
    """Each pigeon sits in a hole, and no two in the same."""
    cnf = Clauses()
    at = [[cnf.new() for _ in range(holes)] for _ in range(count)]
    for row in at:
        cnf.add(*row)
    for hole in range(holes):
        for first in range(count):
            for second in range(first):
                cnf.add(-at[first][hole], -at[second][hole])
    return cnf


def parity(count, span, seed):
    """Two chains of exclusive ors over the same variables, with different answers. The second goes
    through them in an order that exchanges variables at most `span` places apart."""
    rng = random.Random(seed)
    cnf = Clauses()
    row = [cnf.new() for _ in range(count)]
    other = [row[i] for i in sorted(range(count), key=lambda i: i + rng.uniform(0, span))]
    for order, sign in ((row, 1), (other, -1)):
        sum_so_far = order[0]
        for var in order[1:]:
            sum_so_far = cnf.xor(sum_so_far, var)
        cnf.add(sign * sum_so_far)
    return cnf


def counter(bits, steps):
    """A counter that begins at 0 and may count one in each step stands above the number of steps."""
    cnf = Clauses()
    state = [cnf.new() for _ in range(bits)]
    for bit in state:
        cnf.add(-bit)
    for _ in range(steps):
        carry = cnf.new()
        following = []
        for bit in state:
            following.append(cnf.xor(bit, carry))
            carry = cnf.both(bit, carry)
        state = following
    cnf.add(*at_least(cnf, state, steps + 1))
    return cnf


def at_least(cnf, state, number):
    """A literal that is true exactly where the bits are at least the number, as the one literal of a
    clause."""
    result = cnf.new()
    cnf.add(result)
    for place, bit in enumerate(state):
        above = cnf.new()
        if number >> place & 1:
            cnf.add(-above, bit)
            cnf.add(-above, result)
            cnf.add(above, -bit, -result)
        else:
            cnf.add(-bit, above)
            cnf.add(-result, above)
            cnf.add(-above, bit, result)
        result = above
    return (result,)


def files():
    for count in (75, 100, 125, 150, 200):
        for seed in range(3):
            yield f"random-{count}-{seed}", random_clauses(count, seed)
    for holes in (5, 6, 7):
        yield f"pigeons-{holes + 1}-in-{holes}", pigeons(holes + 1, holes)
    for span in (2, 4, 6):
        yield f"parity-40-{span}", parity(40, span, span)
    for steps in (16, 32, 64):
        yield f"counter-{steps}", counter(8, steps)


def make(folder):
    folder.mkdir(parents=True, exist_ok=True)
    for name, cnf in files():
        (folder / f"{name}.cnf").write_text(cnf.text())


def processor_time():
    """The seconds of a processor that the programs that ended so far took."""
    usage = resource.getrusage(resource.RUSAGE_CHILDREN)
    return usage.ru_utime + usage.ru_stime


def timed(command):
    """The seconds of a processor that a command takes and its status; no status where it is over the limit."""
    start = processor_time()
    try:
        done = subprocess.run(command, stdout=subprocess.DEVNULL, stderr=subprocess.DEVNULL, timeout=LIMIT)
    except subprocess.TimeoutExpired:
        return processor_time() - start, None
    return processor_time() - start, done.returncode


def told(seconds, status):
    answers = {10: "satisfiable", 20: "unsatisfiable", None: "over the limit"}
    return f"{answers.get(status, f'status {status}')}, {seconds:.3f} s"


def run(folder, sat_tool):
    minisat = shutil.which("minisat")
    print("| file | sat_tool | minisat | factor |")
    print("|---|---|---|---|")
    for path in sorted(folder.glob("*.cnf")):
        ours, status = timed([sat_tool, path])
        row = [path.stem, told(ours, status)]
        if minisat is None:
            row += ["", ""]
        else:
            theirs, answer = timed([minisat, "-verb=0", path])
            row += [told(theirs, answer), f"{ours / max(theirs, 0.001):.1f}"]
            if None not in (status, answer) and status != answer:
                row[-1] = "the answers differ"
        print(f"| {' | '.join(row)} |", flush=True)


def main():
    match sys.argv[1:]:
        case ["make", folder]:
            make(pathlib.Path(folder))
        case ["run", folder]:
            run(pathlib.Path(folder), "sat_tool")
        case ["run", folder, sat_tool]:
            run(pathlib.Path(folder), sat_tool)
        case _:
            print(__doc__)
            return 4
    return 0


sys.exit(main())
