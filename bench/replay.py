#!/usr/bin/env python3
"""Large lassos, made here and timed on a built program: how long `replay` takes to judge them.

    replay.py PROGRAM [DIR]

A line tells the case, the size of the lasso file, the time and the memory that the program took, its status and the first line that
it said. Of the cases in pairs the second has twice the size of the first, so linear time is twice the time.
"""
import os
import string
import subprocess
import sys
import time

LIMIT = 4 * 1024 * 1024


FIRST = string.ascii_letters + "_"
RESERVED = {"G", "F", "U", "X", "in", "or"}
NAMES = [name for name in [*FIRST, *(a + b for a in FIRST for b in FIRST + string.digits)] if name not in RESERVED]


def balanced(ports, nodes):
    """A formula over all these ports with about so many nodes, in a tree of little height."""
    names = [NAMES[n % ports] for n in range(nodes // 2)]
    leaves = [name if n % 3 else f"in the future {name}" for n, name in enumerate(names)]
    words = ["and", "or", "implies", "iff"]
    while len(leaves) > 1:
        pairs = zip(leaves[::2], leaves[1::2] + [None] * (len(leaves) % 2))
        leaves = [first if second is None else f"({first} {words[len(first) % 4]} {second})" for first, second in pairs]
    return leaves[0]


def free_ports(ports, nodes, contracts):
    """A system of so many free ports, and contracts with so many nodes in all."""
    text = "COMPONENT S system\n  INTERFACE\n" + "".join(f"INPUT PORT {name}: boolean;\n" for name in NAMES[:ports])
    for n in range(contracts):
        text += f"CONTRACT c{n} assume: true; guarantee: always {balanced(ports, nodes // contracts)};\n"
    return text


def states(ports, count, loop_at):
    lines = [f"lasso S {count} {loop_at}"]
    for n in range(count):
        lines.append("state " + " ".join(f"{name}={'true' if (n * 7 + k) % 11 else 'false'}" for k, name in enumerate(NAMES[:ports])))
    return "\n".join(lines + ["end"]) + "\n"


def wide():
    """256 positions over 2,000 free ports, contracts of 10,000 nodes."""
    return free_ports(2_000, 10_000, 20), states(2_000, 256, 100).encode()


def long_line(length):
    """One state line of this length that gives one port its value very often."""
    text = b"lasso S 1 0\nstate" + b" " * (length - 40)
    return free_ports(1, 4, 1), text + b"a=true\nend\n"


def words_line(length):
    """One state line of this length with many words."""
    return free_ports(1, 4, 1), b"lasso S 1 0\nstate a=true" + b" a=true" * (length // 7 - 8) + b"\nend\n"


def ports_line(ports):
    """One state line that gives so many ports their values."""
    names = [f"p{n}" for n in range(ports)]
    text = "COMPONENT S system\n  INTERFACE\n" + "".join(f"INPUT PORT {name}: boolean;\n" for name in names)
    return text, ("lasso S 1 0\nstate" + "".join(f" {name}=true" for name in names) + "\nend\n").encode()


def many_lines(count):
    """So many lines, most of which do not count."""
    return free_ports(1, 4, 1), b"lasso S 1 0\n" + b"-- a remark\n" * count + b"state a=true\nend\n"


CASES = [("wide", wide)]
CASES += [(f"long_line {n}", lambda n=n: long_line(n)) for n in (LIMIT // 2, LIMIT)]
CASES += [(f"words_line {n}", lambda n=n: words_line(n)) for n in (LIMIT // 2, LIMIT)]
CASES += [(f"ports_line {n}", lambda n=n: ports_line(n)) for n in (70_000, 140_000)]
CASES += [(f"many_lines {n}", lambda n=n: many_lines(n)) for n in (150_000, 300_000)]


def main():
    program = os.path.abspath(sys.argv[1])
    folder = sys.argv[2] if len(sys.argv) > 2 else "/tmp/ocra_replay"
    os.makedirs(folder, exist_ok=True)
    for name, made in CASES:
        oss, lasso = made()
        with open(os.path.join(folder, "x.oss"), "w") as out:
            out.write(oss)
        with open(os.path.join(folder, "l.txt"), "wb") as out:
            out.write(lasso)
        start = time.monotonic()
        child = subprocess.Popen([program, "replay", "x.oss", "l.txt"], cwd=folder, stdout=subprocess.PIPE,
                                 stderr=subprocess.STDOUT)
        said = child.stdout.read(200).decode().split("\n")[0]
        child.stdout.read()
        _, status, usage = os.wait4(child.pid, 0)
        wall = time.monotonic() - start
        over = "  OVER 4 MiB" if max(len(oss), len(lasso)) > LIMIT else ""
        print(f"{name:20} {len(lasso):9} bytes {usage.ru_utime:6.2f} s user {wall:6.2f} s "
              f"{usage.ru_maxrss // 1024:5} MB  status {os.waitstatus_to_exitcode(status)}  {said}{over}", flush=True)


if __name__ == "__main__":
    main()
