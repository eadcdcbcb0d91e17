#!/usr/bin/env python3
"""A floor planned with a real solver: five volumes, at least three of which must stand, under lighter and lighter bounds.

    python3 wrappers/python/floor.py

One of Debian's picosat, cadical and cryptominisat is asked, the first that is there.
"""
from itertools import combinations
import shutil
import subprocess
import sys

sys.dont_write_bytecode = True
from tweedpillar import Build

WEIGHTS = [9, 15, 22, 31, 6]
VOLUMES = [1, 2, 3, 4, 5]
SOLVERS = ("picosat", "cadical", "cryptominisat5")
SATISFIABLE, UNSATISFIABLE = 10, 20


def refuse(why):
    print(f"floor.py: {why}", file=sys.stderr)
    sys.exit(2)


def solved(clauses, variables):
    """The literals of a model, or None where there is none."""
    solver = next(filter(shutil.which, SOLVERS), None)
    if solver is None:
        refuse("no solver is there: apt-get install picosat")
    lines = [f"p cnf {variables} {len(clauses)}"] + [" ".join(map(str, clause)) + " 0" for clause in clauses]
    run = subprocess.run([solver], input="\n".join(lines) + "\n", capture_output=True, text=True)
    if run.returncode not in (SATISFIABLE, UNSATISFIABLE):
        refuse(f"{solver} ended with {run.returncode}")
    if run.returncode == UNSATISFIABLE:
        return None
    return {int(word) for line in run.stdout.splitlines() if line.startswith("v") for word in line.split()[1:]}


def main():
    three_stand = [list(some) for some in combinations(VOLUMES, 3)]
    build = Build(VOLUMES, WEIGHTS, 6, records=200, clause_words=2000)
    build.encode(0, sum(WEIGHTS))
    for bound in (60, 40, 30, 29):
        assumed = [[literal] for literal in build.enforce(bound)]
        model = solved(three_stand + build.written() + assumed, build.state.fresh - 1)
        if model is None:
            print(f"at most {bound}: no three of them stand")
            continue
        chosen = [volume for volume in VOLUMES if volume in model]
        print(f"at most {bound}: volumes {chosen} stand and weigh {sum(WEIGHTS[volume - 1] for volume in chosen)}")


main()
