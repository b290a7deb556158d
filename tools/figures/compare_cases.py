#!/usr/bin/env python3
"""compare_cases.py FOLDER OURS PLAIN: compares the text and the status of two programs on each of FOLDER's cases, which
random_cases.py wrote. Tells each difference, and ends with 1 where there is one."""
import argparse
import os
import subprocess
import sys


def ran(program, words, data):
    done = subprocess.run([program, *words], cwd=data, stdin=subprocess.DEVNULL, stdout=subprocess.PIPE, timeout=120)
    return done.stdout, done.returncode


def first_difference(one, two):
    ones, twos = one.splitlines(), two.splitlines()
    for k in range(max(len(ones), len(twos))):
        pair = [it[k].decode(errors="replace")[:90] if k < len(it) else "nothing" for it in (ones, twos)]
        if pair[0] != pair[1]:
            return f"line {k + 1}: ours {pair[0]!r}, plain {pair[1]!r}"
    return "the texts' ends"


def main():
    asked = argparse.ArgumentParser(description=__doc__, allow_abbrev=False)
    for name in ("folder", "ours", "plain"):
        asked.add_argument(name, type=os.path.abspath)
    asked = asked.parse_args()
    folder, ours, plain = asked.folder, asked.ours, asked.plain
    data, cases = os.path.join(folder, "data"), os.path.join(folder, "cases")
    same = bad = 0
    for name in sorted(it[:-5] for it in os.listdir(cases) if it.endswith(".args")):
        with open(os.path.join(cases, name + ".args"), encoding="utf-8") as file:
            words = file.read().splitlines()
        want, got = ran(plain, words, data), ran(ours, words, data)
        if got == want:
            same += 1
            continue
        bad += 1
        print(f"{name}: {' '.join(words[:3])}: status {got[1]}, plain {want[1]}; {first_difference(got[0], want[0])}")
    print(f"{same} cases the same, {bad} differ")
    return bad > 0


if __name__ == "__main__":
    sys.exit(main())
