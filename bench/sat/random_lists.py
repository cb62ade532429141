#!/usr/bin/env python3
"""Asks sat_tool about random clause lists and checks each answer against all assignments.

    random_lists.py SAT_TOOL

300 lists over 4 to 12 variables from a fixed seed, of clauses with none to four literals, repeated and opposite ones
among them. Each list is asked alone and under three sets of assumptions, which stand as unit clauses behind it. A model
has to satisfy the clauses, an unsatisfiable answer has to be right by the table of all assignments, and its trace is
followed chain by chain down to the empty clause. Ends with status 1 at the first answer that is wrong.
"""

import pathlib
import random
import subprocess
import sys
import tempfile

LISTS = 300


def random_list(rng):
    """So many variables, and clauses around the ratio at which half of the lists have a model."""
    variables = rng.randint(4, 12)
    lengths = rng.choice(([3], [2, 3], [1, 2, 3, 4], [2, 2, 3, 3, 4]))
    count = round(variables * rng.uniform(1.5, 5))
    clauses = []
    for _ in range(count):
        clauses.append([rng.choice((-1, 1)) * rng.randint(1, variables) for _ in range(rng.choice(lengths))])
    if rng.random() < 0.01:
        clauses.insert(rng.randrange(len(clauses) + 1), [])
    return variables, clauses


def has_model(variables, clauses):
    """Whether some assignment satisfies the clauses, by columns of truth values: bit k of a column is the value of its
    variable, or of a clause, in assignment k."""
    size = 1 << variables
    everywhere = (1 << size) - 1
    columns = []
    for variable in range(variables):
        run = 1 << variable
        ones = ((1 << run) - 1) << run
        column = 0
        for start in range(0, size, 2 * run):
            column |= ones << start
        columns.append(column)
    left = everywhere
    for clause in clauses:
        holds = 0
        for literal in clause:
            column = columns[abs(literal) - 1]
            holds |= column if literal > 0 else everywhere & ~column
        left &= holds
    return left != 0


def resolvent(left, right):
    """What two clauses give by resolution on the one variable that they have with opposite signs."""
    pivots = [literal for literal in left if -literal in right]
    if len(pivots) != 1:
        return None
    return (left - {pivots[0]}) | (right - {-pivots[0]})


def refutes(trace, clauses):
    """Whether the trace begins with these clauses and derives the empty clause from them."""
    known = {}
    given = []
    for line in trace.splitlines():
        numbers = [int(word) for word in line.split()]
        number, rest = numbers[0], numbers[1:]
        end = rest.index(0)
        literals, antecedents = frozenset(rest[:end]), rest[end + 1:]
        if antecedents[-1] != 0 or number in known:
            return False
        antecedents = antecedents[:-1]
        if antecedents:
            if any(antecedent not in known for antecedent in antecedents):
                return False
            derived = known[antecedents[0]]
            for antecedent in antecedents[1:]:
                derived = resolvent(derived, known[antecedent])
                if derived is None:
                    return False
            if derived != literals:
                return False
        else:
            given.append(literals)
        known[number] = literals
    wanted = [frozenset(clause) for clause in clauses]
    return all(clause in wanted for clause in given) and frozenset() in known.values()


def ask(tool, folder, variables, clauses):
    """The answer to a list: its model as a list of literals, or None with the trace."""
    file, trace = folder / "list.cnf", folder / "trace"
    lines = [f"p cnf {variables} {len(clauses)}"]
    lines += [" ".join(map(str, (*clause, 0))) for clause in clauses]
    file.write_text("\n".join(lines) + "\n")
    trace.unlink(missing_ok=True)
    ended = subprocess.run([tool, str(file), "--trace", str(trace)], capture_output=True, text=True, timeout=60)
    said = ended.stdout.splitlines()
    if ended.returncode == 10 and said[0] == "s SATISFIABLE":
        literals = [int(word) for line in said[1:] if line.startswith("v ") for word in line.split()[1:]]
        return [literal for literal in literals if literal != 0], None
    if ended.returncode == 20 and said == ["s UNSATISFIABLE"]:
        return None, trace.read_text()
    raise SystemExit(f"sat_tool ended with {ended.returncode}: {ended.stdout}{ended.stderr}")


def is_right(tool, folder, variables, clauses):
    model, trace = ask(tool, folder, variables, clauses)
    if model is not None:
        chosen = set(model)
        if len({abs(literal) for literal in chosen}) != variables or len(chosen) != variables:
            return False, True
        return all(any(literal in chosen for literal in clause) for clause in clauses), True
    return not has_model(variables, clauses) and refutes(trace, clauses), False


def main():
    if len(sys.argv) != 2:
        raise SystemExit("usage: random_lists.py SAT_TOOL")
    tool = str(pathlib.Path(sys.argv[1]).resolve())
    rng = random.Random(1963)
    counts = {True: 0, False: 0}
    with tempfile.TemporaryDirectory() as name:
        for number in range(LISTS):
            variables, clauses = random_list(rng)
            for asked in range(4):
                assumed = [] if asked == 0 else [
                    [rng.choice((-1, 1)) * variable]
                    for variable in rng.sample(range(1, variables + 1), rng.randint(1, min(4, variables)))
                ]
                right, satisfiable = is_right(tool, pathlib.Path(name), variables, clauses + assumed)
                if not right:
                    print(f"list {number}, question {asked}: a wrong answer to {variables} {clauses} {assumed}")
                    return 1
                counts[satisfiable] += 1
    print(f"random lists: {counts[True]} with a model, {counts[False]} without one, all answered rightly")
    return 0


if __name__ == "__main__":
    raise SystemExit(main())
