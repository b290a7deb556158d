#!/usr/bin/env python3
"""compare.py OURS PLAIN BOARDS [--runs N] [--cpu K] [--only WORD].. : runs two programs by turns N times (30) on each board
and command, and prints the least and the lower quartile of user and system time of each, in milliseconds, and the
ratios OURS / PLAIN. Each run's text and status are compared with the first one's of PLAIN; a journal for `audit` is
what PLAIN's `play` writes. With --cpu all runs are pinned to that processor; --only keeps figures with the word in
their names. Ends with 1 where a text or a status differed."""
import argparse
import os
import sys
import tempfile



def figures(boards, only):
    """Returns the name, the folder and the words of each figure: `check`, then `play` before its `audit`."""
    found = []
    for board in sorted(os.listdir(boards)):
        folder = os.path.join(boards, board)
        for command in ("check", "play", "audit", "soak", "plan"):
            path = os.path.join(folder, command + ".words")
            if os.path.exists(path):
                with open(path, encoding="utf-8") as file:
                    found.append((f"{board} {command}", folder, file.read().splitlines()))
    return [it for it in found if not only or any(word in it[0] for word in only)]


def run(program, folder, words, out):
    """Runs the program once and returns its text, its status and its user and system time in milliseconds."""
    os.ftruncate(out, 0)
    os.lseek(out, 0, os.SEEK_SET)
    os.chdir(folder)
    null = os.open(os.devnull, os.O_RDONLY)
    actions = [(os.POSIX_SPAWN_DUP2, null, 0), (os.POSIX_SPAWN_DUP2, out, 1)]
    pid = os.posix_spawn(program, ["jailhouse", *words], os.environ, file_actions=actions)
    _, status, used = os.wait4(pid, 0)
    os.close(null)
    size = os.fstat(out).st_size
    return os.pread(out, size, 0) if size else b"", os.waitstatus_to_exitcode(status), \
        (used.ru_utime + used.ru_stime) * 1000


def journal_of(plain, folder, out):
    """Writes the journal that `audit` judges."""
    with open(os.path.join(folder, "play.words"), encoding="utf-8") as file:
        text, _, _ = run(plain, folder, file.read().splitlines(), out)
    path = os.path.join(folder, "journal.txt")
    with open(path, "wb") as file:
        file.write(text)


def quartile(times):
    return sorted(times)[(len(times) - 1) // 4]


def main():
    asked = argparse.ArgumentParser(description=__doc__, allow_abbrev=False)
    asked.add_argument("ours")
    asked.add_argument("plain")
    asked.add_argument("boards")
    asked.add_argument("--runs", type=int, default=30)
    asked.add_argument("--cpu", type=int)
    asked.add_argument("--only", action="append", default=[])
    asked = asked.parse_args()
    ours, plain = os.path.abspath(asked.ours), os.path.abspath(asked.plain)
    if asked.cpu is not None:
        os.sched_setaffinity(0, {asked.cpu})
    shared = "/dev/shm" if os.path.isdir("/dev/shm") else None
    kept = tempfile.TemporaryFile(dir=shared)
    out = kept.fileno()
    bad = False
    print(f"{'':34}{'least':>9}{'plain':>9}{'ratio':>7}{'quart.':>9}{'plain':>9}{'ratio':>7}", flush=True)
    for name, folder, words in figures(os.path.abspath(asked.boards), asked.only):
        if words[0] == "audit":
            journal_of(plain, folder, out)
        want = run(plain, folder, words, out)[:2]
        times = ([], [])
        differs = set()
        for turn in range(asked.runs):
            for which in (0, 1) if turn % 2 == 0 else (1, 0):
                text, status, used = run((ours, plain)[which], folder, words, out)
                times[which].append(used)
                if (text, status) != want:
                    differs.add(("ours", "plain")[which])
        row = []
        for figure in (min, quartile):
            one, two = figure(times[0]), figure(times[1])
            row.append(f"{one:9.2f}{two:9.2f}{one / two if two else 0:7.2f}")
        print(f"{name:34}{''.join(row)}{''.join('  DIFFERS: ' + it for it in sorted(differs))}", flush=True)
        bad |= bool(differs)
    return int(bad)


if __name__ == "__main__":
    sys.exit(main())
