#!/usr/bin/env python3
"""Levels whose questions are decided by the search for a first lasso, made here and timed on a built program.

    lassos.py PROGRAM [DIR]

Each file is checked at depth 8 and at depth 32. A line tells the file, the depth, the time and the memory
that the program took, its status and the first line that it said.
"""
import os
import subprocess
import sys
import time


def counter(most):
    """A counter from 0 on that is said never to show its greatest number. It does after so many steps."""
    return f"""COMPONENT S system
  INTERFACE
    OUTPUT PORT x: 0..{most};
    CONTRACT c
      assume: true;
      guarantee: always (x != {most});
  REFINEMENT
    SUB g: Gen;
    CONNECTION x := g.x;
    CONTRACT c REFINEDBY g.step;

COMPONENT Gen
  INTERFACE
    OUTPUT PORT x: 0..{most};
    CONTRACT step
      assume: true;
      guarantee: x = 0 and always (x < {most} implies next(x) = x + 1);
"""


def ring(count):
    """Booleans in a ring that hand on a token, fairly; the last one is said never to have it."""
    names = [f"t{n}" for n in range(count)]
    ports = "\n".join(f"    OUTPUT PORT {name}: boolean;" for name in names)
    start = " and ".join([names[0]] + [f"not {name}" for name in names[1:]])
    moved = " and ".join(f"(next({names[n]}) iff {names[n - 1]})" for n in range(count))
    stays = " and ".join(f"(next({name}) iff {name})" for name in names)
    wires = "\n".join(f"    CONNECTION {name} := r.{name};" for name in names)
    return f"""COMPONENT S system
  INTERFACE
{ports}
    CONTRACT c
      assume: true;
      guarantee: never {names[-1]};
  REFINEMENT
    SUB r: Ring;
{wires}
    CONTRACT c REFINEDBY r.step;

COMPONENT Ring
  INTERFACE
{ports}
    OUTPUT PORT go: boolean;
    CONTRACT step
      assume: true;
      guarantee: {start} and always ((go implies {moved}) and (not go implies {stays})) and always in the future go;
"""


def stages(count, more=""):
    """Stages one behind the other, each of which answers what it is asked. No lasso breaks the level."""
    subs = "\n".join(f"    SUB s{n}: Stage;" for n in range(count))
    wires = "\n".join(f"    CONNECTION s{n}.req := {'req' if n == 0 else f's{n - 1}.ack'};" for n in range(count))
    parts = ", ".join(f"s{n}.resp" for n in range(count))
    contract = f"""    INPUT PORT req: boolean;
    OUTPUT PORT ack: boolean;
    CONTRACT resp
      assume: true;
      guarantee: always (req implies in the future ack){more};"""
    return f"""COMPONENT L system
  INTERFACE
{contract}
  REFINEMENT
{subs}
{wires}
    CONNECTION ack := s{count - 1}.ack;
    CONTRACT resp REFINEDBY {parts};

COMPONENT Stage
  INTERFACE
{contract}
"""


CASES = (("counter_7", counter(7)), ("counter_31", counter(31)), ("counter_255", counter(255)), ("ring_8", ring(8)),
         # closures of 112 and of 393 members
         ("stages_8", stages(8)), ("stages_16", stages(16, " and always (ack implies in the future not ack)")))


def main():
    program = os.path.abspath(sys.argv[1])
    folder = sys.argv[2] if len(sys.argv) > 2 else "/tmp/ocra_lassos"
    os.makedirs(folder, exist_ok=True)
    for name, text in CASES:
        with open(os.path.join(folder, name + ".oss"), "w") as out:
            out.write(text)
        for depth in ("8", "32"):
            start = time.monotonic()
            child = subprocess.Popen([program, "check", name + ".oss", "--depth", depth], cwd=folder, stdout=subprocess.PIPE,
                                     stderr=subprocess.STDOUT)
            said = child.stdout.read(200).decode().split("\n")[0]
            child.stdout.read()
            _, status, usage = os.wait4(child.pid, 0)
            wall = time.monotonic() - start
            print(f"{name:12} depth {depth:>2} {usage.ru_utime:7.2f} s user {wall:7.2f} s {usage.ru_maxrss // 1024:5} MB"
                  f"  status {os.waitstatus_to_exitcode(status)}  {said}", flush=True)


if __name__ == "__main__":
    main()
