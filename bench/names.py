#!/usr/bin/env python3
"""Large specifications, made here and timed on a built program: how long `check` takes to answer them.

    names.py PROGRAM [DIR]

Each file has about 4 MiB and asks much of one part of the reading of names, types and limits. A line tells the file, its size, the
time and the memory that the program took, its status and the first line that it said.
"""
import os
import resource
import subprocess
import sys
import time

LIMIT = 4 * 1024 * 1024
HEAD = "COMPONENT Main system\n  INTERFACE\n"


def components():
    """150,000 components: too many."""
    yield HEAD
    for n in range(150_000):
        yield f"COMPONENT c{n} INTERFACE\n"


def ports():
    """One component with 150,000 ports."""
    yield HEAD
    for n in range(150_000):
        yield f"INPUT PORT p{n}:event;\n"


def subcomponents():
    """One refinement with 100,000 subcomponents: too many instances."""
    yield HEAD + "  REFINEMENT\n"
    for n in range(100_000):
        yield f"SUB s{n}: Part;\n"
    yield "COMPONENT Part INTERFACE\n"


def connections():
    """100,000 connections, to the 1,000 inputs of 100 subcomponents."""
    yield HEAD + "INPUT PORT source: boolean;\n  REFINEMENT\n"
    for n in range(100):
        yield f"SUB s{n}: Part;\n"
    for n in range(100_000):
        yield f"CONNECTION s{n // 1000}.p{n % 1000} := source;\n"
    yield "COMPONENT Part INTERFACE\n"
    for n in range(1_000):
        yield f"INPUT PORT p{n}: boolean;\n"


def chain():
    """A chain of 1,024 components that contain each other."""
    yield HEAD + "  REFINEMENT SUB a: c0;\n"
    for n in range(1023):
        yield f"COMPONENT c{n} INTERFACE REFINEMENT SUB a: c{n + 1 if n < 1022 else 0};\n"


def doubling():
    """A chain of 1,024 components, each of which holds two of the next: 2^1024 - 1 instances."""
    yield HEAD + "  REFINEMENT SUB a: c0; SUB b: c0;\n"
    for n in range(1022):
        yield f"COMPONENT c{n} INTERFACE REFINEMENT SUB a: c{n + 1}; SUB b: c{n + 1};\n"
    yield "COMPONENT c1022 INTERFACE\n"


def enumerators():
    """60,000 subcomponents of a component with 60 enumerators, and connections that each name one."""
    names = [f"e{n}" for n in range(60)]
    yield HEAD + "  REFINEMENT\n"
    for n in range(60_000):
        yield f"SUB s{n}:P;"
    yield "\n"
    for n in range(60_000):
        yield f"CONNECTION s{n}.i:={names[n % 60]};"
    yield "\nCOMPONENT P INTERFACE INPUT PORT i:{" + ",".join(names) + "};\n"


def enumerations():
    """4,000 enumerations of 250 names in all the components, compared pairwise."""
    names = ",".join(f"{chr(97 + n % 26)}{n // 26}" for n in range(250))
    yield HEAD
    for n in range(4_000):
        yield f"INPUT PORT v_{n}:{{{names}}};\n"
    for first in range(0, 3_999, 120):
        pairs = range(first, min(first + 120, 3_999))
        yield f"CONTRACT c{first} assume: true; guarantee: " + " and ".join(f"v_{n} = v_{n + 1}" for n in pairs) + ";\n"


def comparisons():
    """50,000 comparisons with the last name of an enumeration of 50,000."""
    yield HEAD + "INPUT PORT v:{" + ",".join(f"e{n}" for n in range(50_000)) + "};\n"
    for first in range(0, 50_000, 100):
        yield f"CONTRACT c{first} assume: true; guarantee: " + "&".join(["v=e49999"] * 100) + ";\n"


def one_pair():
    """60,000 comparisons of two enumerations of 150,000 names that share one name."""
    yield HEAD + "INPUT PORT v:{" + ",".join(f"e{n}" for n in range(150_000)) + "};\n"
    yield "INPUT PORT w:{" + ",".join(f"f{n}" for n in range(149_999)) + ",e1};\n"
    for first in range(0, 60_000, 100):
        yield f"CONTRACT c{first} assume: true; guarantee: " + "&".join(["v=w"] * 100) + ";\n"


def wired_components():
    """30,000 components with a connection each, between ports of the same two components with 100,000 names."""
    names = ",".join(f"e{n}" for n in range(100_000))
    yield HEAD
    for n in range(30_000):
        yield f"COMPONENT c{n} INTERFACE REFINEMENT SUB a:K;SUB b:L;CONNECTION a.p:=b.o;\n"
    yield f"COMPONENT K INTERFACE INPUT PORT p:{{{names}}};\n"
    yield f"COMPONENT L INTERFACE OUTPUT PORT o:{{{names}}};\n"


def wired_subcomponents():
    """50,000 subcomponents of one component, each with a connection from the same own port of 100,000 names."""
    names = ",".join(f"e{n}" for n in range(100_000))
    yield HEAD + f"INPUT PORT v:{{{names}}};\n  REFINEMENT\n"
    for n in range(50_000):
        yield f"SUB s{n}:P;"
    yield "\n"
    for n in range(50_000):
        yield f"CONNECTION s{n}.i:=v;"
    yield f"\nCOMPONENT P INTERFACE INPUT PORT i:{{{names}}};\n"


def operands():
    """One formula of 300,000 operands: too high."""
    yield HEAD + "INPUT PORT a: boolean;\nCONTRACT c assume: true; guarantee: "
    yield " and ".join("a" for _ in range(300_000))
    yield ";\n"


def balanced():
    """One formula of 262,144 operands in a balanced tree."""
    text = "a"
    for level in range(18):
        text = f"({text}&{text})" if level < 17 else f"{text}&{text}"
    yield HEAD + "INPUT PORT a: boolean;\nCONTRACT c assume: true; guarantee: "
    yield text
    yield ";\n"


CASES = (components, ports, subcomponents, connections, chain, doubling, enumerators, enumerations, comparisons, one_pair,
         wired_components, wired_subcomponents, operands, balanced)


def main():
    program = os.path.abspath(sys.argv[1])
    folder = sys.argv[2] if len(sys.argv) > 2 else "/tmp/ocra_names"
    os.makedirs(folder, exist_ok=True)
    for case in CASES:
        path = os.path.join(folder, case.__name__ + ".oss")
        with open(path, "w") as out:
            out.writelines(case())
        size = os.path.getsize(path)
        start = time.monotonic()
        child = subprocess.Popen([program, "check", case.__name__ + ".oss"], cwd=folder, stdout=subprocess.PIPE,
                                 stderr=subprocess.STDOUT)
        said = child.stdout.read(200).decode().split("\n")[0]
        child.stdout.read()
        _, status, usage = os.wait4(child.pid, 0)
        wall = time.monotonic() - start
        over = "  OVER 4 MiB" if size > LIMIT else ""
        print(f"{case.__name__:19} {size:9} bytes {usage.ru_utime:6.2f} s user {wall:6.2f} s "
              f"{usage.ru_maxrss // 1024:5} MB  status {os.waitstatus_to_exitcode(status)}  {said}{over}", flush=True)


if __name__ == "__main__":
    main()
