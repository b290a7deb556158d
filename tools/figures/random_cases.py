#!/usr/bin/env python3
"""random_cases.py COUNT SEED FOLDER PLAIN: writes COUNT random calls of `check`, `play` and `audit`: the words of each in
FOLDER/cases/NAME.args, all files in FOLDER/data. Journals for `audit` come from the plain program."""
import argparse
import os
import random
import struct
import subprocess
import sys

from boards import cell, device, system

PAGE = 4096
ECAM = 0x8e00000
SHM = 0x7fb00000
STATES, MESSAGES, REPLIES = (0, 0, 1, 2, 3, 4, 7), (0, 1, 2), (0, 1, 2, 3, 3, 3, 4, 4, 9)
POWER_CALLS = [0x84000002, 0xc4000003, 0xc4000003, 0xc4000003, 0xc4000004]


class Case:
    def __init__(self, name, folder, rng):
        self.name, self.folder, self.rng = name, folder, rng

    def file(self, name, what):
        name = f"{self.name}_{name}"
        with open(os.path.join(self.folder, "data", name), "wb") as file:
            file.write(what.encode() if isinstance(what, str) else what)
        return name

    def words(self, *words):
        path = os.path.join(self.folder, "cases", self.name)
        with open(path, "wb"):
            pass
        with open(path + ".args", "w") as file:
            file.write("".join(word + "\n" for word in words))


def link_sections(link, peers, own, extra, virt_move, rng):
    """Sections of a link: place and address go together for root; a cell may move its addresses."""
    place = SHM + link * 0x20000
    sizes = [PAGE, rng.choice([0, PAGE, 2 * PAGE]) if extra is None else extra[0]]
    out = rng.choice([0, PAGE, 2 * PAGE]) if extra is None else extra[1]
    sizes += [out] * peers
    found, at = [], place
    for k, size in enumerate(sizes):
        flags = 1 if k == 0 or k >= 2 and k - 2 != own else 3
        found.append([at, at + virt_move, size, flags])
        at += size
    return found, (sizes[1], out)


def spoil(rng, regions, devices_args, big):
    """Spoils one thing of a list of regions."""
    if not regions:
        return
    r = rng.choice(regions)
    what = rng.randrange(9)
    if what == 0:
        r[0] += rng.choice([1, PAGE, -PAGE, 0x1000000, 1 << 39, 1 << 48])
    elif what == 1:
        r[1] += rng.choice([1, 16, PAGE, -PAGE, 1 << 39, 1 << 48])
    elif what == 2:
        r[2] = rng.choice([0, 1, 64, PAGE, 3 * PAGE, PAGE + 16, 1 << 39, 1 << 48, (1 << 64) - 1])
    elif what == 3:
        r[3] ^= rng.choice([1, 2, 4, 0x20, 0x40, 0x80, 0x100])
    elif what == 4:
        o = rng.choice(regions)
        r[0] = o[0]
    elif what == 5:
        o = rng.choice(regions)
        r[1] = o[1]
    elif what == 6:
        r[0] = rng.choice([0x7fc00000, 0x7fbff000, 0x80000000, 0x40000000])
    elif what == 7 and big:
        regions.append(list(rng.choice(regions)))
    elif devices_args:
        d = rng.choice(devices_args)
        k = rng.randrange(len(d))
        d[k] = max(0, d[k] + rng.choice([-1, 1, 2]))
    for it in regions:
        for k in range(4):
            it[k] %= 1 << 64


def make_configs(rng, spoilt):
    """A system and some cells that mostly fit together."""
    links = rng.choice([0, 0, 1, 1, 2])
    peers = [rng.choice([2, 2, 3, 4]) for _ in range(links)]
    vectors = [rng.choice([0, 1, 2, 16]) for _ in range(links)]
    cpus = rng.randrange(3, 8)
    free = list(range(1, cpus))
    rng.shuffle(free)
    root = [[0x40000000, 0x40000000, 0x3fb00000, 0xf], [0x9000000, 0x9000000, PAGE, 0x13],
            [0x9002040, 0x9002040, 0x40, rng.choice([0x40003, 0x48003, 0xf8003, 0x10001, 0xf0002])],
            [0x9002080, 0x9002080, 0x40, rng.choice([0x40003, 0x30003, 0xf8003, 0x80003])]]
    if rng.random() < 0.3:
        root.insert(1, [0x2000000, 0x2000000, 0x400000, rng.choice([0xf, 0x10f, 0x3])])
    sizes, shm = [None] * links, []
    root_devices = []
    for link in range(links):
        there, sizes[link] = link_sections(link, peers[link], 0, None, 0, rng)
        root_devices.append([link if rng.random() < 0.9 else 3, len(root) + len(shm), peers[link], 0, vectors[link]])
        shm += there
    root += shm
    cells = []
    for c in range(rng.randrange(1, 5)):
        regions, devices = [], []
        place = 0x7f000000 + c * 0x100000
        flags = rng.choice([0xf, 0x4f, 0x4f, 0x4f, 0x8f, 0x10f, 0x14f])
        regions.append([place, 0, rng.choice([PAGE, 0x10000, 0x200000 if c == 0 else 0x20000]), flags])
        if rng.random() < 0.9:
            regions.append([0, 0x80000000, PAGE, rng.choice([0x23, 0x23, 0x23, 0x21])])
        if rng.random() < 0.5:
            regions.append([0x9000000, 0x9000000, PAGE, 0x93])
        if rng.random() < 0.3:
            regions.append([0x9002040, 0x10000040, 0x40, rng.choice([0xc0083, 0xf8083, 0x40083])])
        if rng.random() < 0.3:
            regions.append([0x9004040, 0x10000080, 0x40, rng.choice([0xc0003, 0xf8003, 0x40003])])
        if rng.random() < 0.3:
            regions.append([place + 0x80000, 0x200000 + rng.choice([0, PAGE]), PAGE, rng.choice([1, 3, 7, 0x43])])
        for link in range(links):
            if c + 1 < peers[link] and rng.random() < 0.8:
                there, _ = link_sections(link, peers[link], c + 1, sizes[link], rng.choice([0, 0x1000000]) * c, rng)
                devices.append([link, len(regions), peers[link], c + 1, rng.choice([vectors[link], 0, 2])])
                shared = rng.choice([0, 0, 0x80])
                regions += [[it[0], it[1], it[2], it[3] | shared] for it in there]
        cells.append([f"c{c}", c + 1, [free.pop() for _ in range(min(len(free), rng.choice([1, 1, 2])))] or [rng.randrange(1, cpus)],
                      regions, devices, rng.choice([0, 0, 0, 1]), rng.choice([0, 0, 1, 2, 5])])
    if spoilt:
        for _ in range(rng.choice([1, 1, 2])):
            if rng.random() < 0.3:
                spoil(rng, root, root_devices, True)
            else:
                it = rng.choice(cells)
                spoil(rng, it[3], it[4], True)
        if rng.random() < 0.2:
            it = rng.choice(cells)
            it[2] = rng.choice([[], [0], [17], [9], [1, 2]])
        if rng.random() < 0.2:
            it = rng.choice(cells)
            it[rng.choice([0])] = rng.choice(["c0", "root"])
        if rng.random() < 0.2:
            rng.choice(cells)[1] = rng.choice([0, 1, 2])
    hypervisor = rng.choice([(0x7fc00000, 0x400000)] * 9 + [(0x7fc00000, rng.choice([11, 18, 23, 32]) * PAGE)])
    if spoilt and rng.random() < 0.1:
        hypervisor = rng.choice([(0x7fc00000, 0), (0x7fc00010, PAGE), (0x7fc00000, 65 << 20), (1 << 48, PAGE)])
    sys_bytes = system("root", 0, range(cpus), [tuple(it) for it in root], [device(d[0], d[1], d[2] & 255, d[3], d[4])
                       for d in root_devices], hypervisor=hypervisor, ecam=ECAM if links or rng.random() < 0.4 else 0)
    cell_bytes = [cell(it[0], it[1], it[2], [tuple(r) for r in it[3]],
                       [device(d[0], d[1], d[2] & 255, d[3], d[4]) for d in it[4]], flags=it[5], timeout=it[6])
                  for it in cells]
    if spoilt and rng.random() < 0.25:
        k = rng.randrange(len(cell_bytes))
        cell_bytes[k] = cut(rng, cell_bytes[k])
    if spoilt and rng.random() < 0.1:
        sys_bytes = cut(rng, sys_bytes)
    return sys_bytes, cell_bytes, cells, cpus, [(d[0], d[4]) for d in root_devices]


def cut(rng, what):
    what = bytearray(what)
    how = rng.randrange(5)
    if how == 0:
        return bytes(what[:rng.randrange(len(what))])
    if how == 1:
        return bytes(what + bytes(rng.randrange(1, 9)))
    if how == 2:
        what[rng.randrange(min(8, len(what)))] ^= 1 << rng.randrange(8)
    elif how == 3:
        at = 48 + 4 * rng.randrange(8) + (88 if what[:6] == b"JHSYST" else 0)
        struct.pack_into("<I", what, at, rng.choice([0, 1, 2, 3, 64, 65, 256, 257, 1024, 1025]))
    else:
        what[rng.randrange(8, len(what))] ^= 1 << rng.randrange(8)
    return bytes(what)


def setup(rng, bdf, bar, bdfs):
    vectors = dict(bdfs).get(bdf, 1)
    base = ECAM + bdf * PAGE
    lines = [f"write 4 {base + 0x10:#x} {bar:#x}", f"write 4 {base + 0x14:#x} {bar + 0x1000:#x}",
             f"write {rng.choice([1, 2, 4])} {base + 4:#x} {rng.choice([6] * 20 + [2]):#x}",
             f"write 2 {base + 0x62:#x} {rng.choice([0x8000] * 20 + [0xc000]):#x}",
             f"write 4 {bar + 8:#x} 1"]
    for k in range(3 if vectors else 0):
        lines.append(f"write 4 {bar + 0x100c + 16 * k:#x} 0")
    if rng.random() < 0.3:
        lines.append(f"write 1 {base + 0x43:#x} 1")
    if rng.random() < 0.05:
        rng.shuffle(lines)
    return lines


def device_lines(rng, bar, bdf):
    base = ECAM + bdf * PAGE
    kind = rng.choice([0, 0, 0, 1, 1, 2, 3, 3, 4, 5, 6])
    if kind == 0 and rng.random() < 0.5:
        return [f"write 4 {bar + 0xc:#x} {rng.choice([0, 1, 2]) << 16 | rng.choice([0, 1]):#x}", "irq"]
    if kind == 0:
        return [f"write 4 {bar + 0xc:#x} {rng.choice([0, 0, 1, 1, 2, 3]) << 16 | rng.choice([0, 0, 0, 1, 1, 2, 15, 16]):#x}"]
    if kind == 1:
        return [f"write 4 {bar + 0x10:#x} {rng.randrange(4)}"]
    if kind == 2:
        return [f"read 4 {bar + rng.choice([0, 4, 8, 12, 16, 16, 20, 0xffc]):#x}"]
    if kind == 3:
        return ["irq"]
    if kind == 4:
        w = rng.choice([1, 2, 4])
        return [f"read {w} {base + rng.randrange(0, 0x80, w):#x}"]
    if kind == 5:
        w = rng.choice([1, 2, 4])
        return [f"write {w} {base + rng.choice([4, 0x10, 0x14, 0x40, 0x60, 0x43 // w * w]):#x} "
                f"{rng.randrange(1 << 8 * w):#x}"]
    return [f"write 4 {bar + 8:#x} {rng.choice([0, 1, 1, 1])}", f"read 4 {bar + 8:#x}"]


def accesses(rng, pool, count):
    lines = []
    for _ in range(count):
        w = rng.choice([1, 2, 4, 8])
        a = rng.choice(pool) + rng.choice([0, 0, 8, 0x10, 0x100, 1, -4, 0xffc, 0x1000])
        if rng.random() < 0.75:
            a = a // 8 * 8
        a = max(a, 0)
        kind = rng.random()
        if kind < 0.45:
            lines.append(f"read {w} {a:#x}")
        elif kind < 0.85:
            lines.append(f"write {w} {a:#x} {rng.randrange(1 << rng.choice([4, 8 * w])) % (1 << 8 * w):#x}")
        elif kind < 0.93:
            lines.append(f"fetch {a // 4 * 4:#x}")
        else:
            lines.append(f"await {w} {a:#x} {rng.choice([0, 0, 1])}")
    return lines


def root_program(rng, cells, caller, bdfs):
    lines = []
    bars = {}
    has_devices = bool(bdfs) or rng.random() < 0.05
    bdfs = bdfs or [(0, 1)]
    if caller and rng.random() < 0.85:
        for it in range(len(cells)):
            lines.append(f"hvc 1 {0x48000000 + 0x10000 * it:#x} 0")
        for it in cells:
            if rng.random() < 0.3:
                lines.append(f"hvc 3 {it[1]} 0")
            if rng.random() < 0.85:
                lines.append(f"hvc 2 {it[1]} 0")
    for bdf, _ in bdfs if has_devices and rng.random() < 0.6 else []:
        bars[bdf] = 0x10000000 + (bdf << 24)
        lines += setup(rng, bdf, bars[bdf], bdfs)
    safe = [0x40001000, 0x41000000, 0x40002ff8, 0x7fafe000]
    risky = [0x7f000000, 0x7f100000, 0x7f200000, 0x9000000, 0x9002040, 0x9002080, SHM, SHM + PAGE, SHM + 0x20000,
             0x8e00000, 0x7fbff000, 0x7fc00000, 0x30000000, (1 << 39) - 8, (1 << 48) - 8, 0x7f080000, 0x2000000]
    for _ in range(rng.randrange(4, 26)):
        kind = rng.random()
        if kind < 0.55 and caller:
            it = rng.randrange(len(cells))
            code = rng.choice([1, 1, 1, 2, 2, 2, 3, 4, 4])
            a = 0x48000000 + 0x10000 * it if code == 1 else cells[it][1]
            if rng.random() < 0.04:
                a = rng.choice([0, 9, 1 << 32, 0x7fc00000, 0x7f000000, 0x48000001, (1 << 64) - 1])
            lines.append(f"hvc {code} {a:#x} {rng.choice([0, 7])}")
        elif kind < 0.65:
            code = rng.choice([0, 5, 5, 5, 6, 6, 7, 7, 8, 9, rng.choice(POWER_CALLS)])
            lines.append(f"hvc {code} {rng.choice([0, 1, 1, 2, 4, 15, 16, 99])} {rng.choice([0, 0, 0, 1])}")
        elif kind < 0.78:
            if not has_devices:
                continue
            bdf = rng.choice(bdfs)[0] if rng.random() < 0.97 else rng.randrange(3)
            if bdf not in bars:
                bars[bdf] = 0x10000000 + (bdf << 24) if rng.random() < 0.95 else 0x13000000
                lines += setup(rng, bdf, bars[bdf], bdfs)
            lines += device_lines(rng, bars[bdf], bdf)
        elif kind < 0.95:
            lines += accesses(rng, safe, 2)
        else:
            lines += accesses(rng, risky, 1)
    return lines


def cell_program(rng, it, bdfs):
    lines = []
    bars = {}
    size = it[3][0][2] if it[3] else PAGE
    safe = [0, 0x100, max(0, min(size, 0x10000) - 0x2000), 0x80000000, 0x80000010]
    risky = [0x9000000, 0x10000040, 0x10000080, 0x200000, size, SHM + PAGE, SHM, 0x7ff000000, 0x80001000]
    for bdf, _ in bdfs if rng.random() < 0.7 else []:
        bars[bdf] = 0x20000000 + (bdf << 24)
        lines += setup(rng, bdf, bars[bdf], bdfs)
    for _ in range(rng.randrange(1, 14)):
        kind = rng.random()
        if kind < 0.12 or len(it[2]) > 1 and kind < 0.3:
            cpu = rng.choice(it[2]) if rng.random() < 0.85 else rng.randrange(18)
            lines.append(f"hvc {rng.choice(POWER_CALLS):#x} {cpu} {rng.choice([0, 0, 0, 1])}")
            kind = rng.random()
        if kind < 0.25:
            lines.append(f"await 4 0x8000000c {rng.choice(MESSAGES)}")
            lines.append(f"write 4 0x80000010 {rng.choice(REPLIES)}")
        elif kind < 0.33:
            lines.append(f"write 4 0x80000008 {rng.choice(STATES)}")
        elif kind < 0.43:
            lines.append(f"hvc {rng.randrange(9)} {rng.choice([0, 1, 2, 4])} {rng.choice([0, 0, 1])}")
        elif kind < 0.65:
            if not bdfs and rng.random() < 0.95:
                continue
            bdf = rng.choice(bdfs or [(0, 1)])[0] if rng.random() < 0.97 else rng.randrange(3)
            if bdf not in bars:
                bars[bdf] = 0x20000000 + (bdf << 24) if rng.random() < 0.95 else 0x23000000
                lines += setup(rng, bdf, bars[bdf], bdfs)
            lines += device_lines(rng, bars[bdf], bdf)
        elif kind < 0.93:
            lines += accesses(rng, safe, 2)
        else:
            lines += accesses(rng, risky, 1)
    return lines


def spoil_text(rng, text):
    where = rng.randrange(len(text) + 1)
    return text[:where] + rng.choice(["", " ", "x", "0", "\n", "#", "\t", "1", "-", "\r\n", "\r", "0x"]) + \
        text[where + rng.randrange(2):]


def board_of(case, spoilt):
    rng = case.rng
    sys_bytes, cell_bytes, cells, cpus, root_links = make_configs(rng, spoilt and rng.random() < 0.5)
    bdfs = root_links
    preloads = [(case.file(f"{k}.cell", it), 0x48000000 + 0x10000 * k) for k, it in enumerate(cell_bytes)]
    programs = []
    callers = {0} | ({1} if rng.random() < 0.3 else set())
    for cpu in range(cpus):
        if cpu == 0 or rng.random() < 0.5:
            programs.append(("root", cpu, root_program(rng, cells, cpu in callers, bdfs if cpu == 0 or rng.random() < 0.2 else [])))
    for it in cells:
        for cpu in it[2]:
            if cpu < 16 and (it[0], cpu) not in [(p[0], p[1]) for p in programs] and rng.random() < 0.9:
                programs.append((it[0], cpu, cell_program(rng, it, [(d[0], d[4]) for d in it[4]])))
    listed = []
    for k, (who, cpu, lines) in enumerate(programs):
        text = "".join(line + "\n" for line in lines)
        if spoilt and rng.random() < 0.05:
            text = spoil_text(rng, text)
        listed.append(f'{{"cell": "{who}", "cpu": {cpu}, "file": "{case.file(f"{k}.txt", text)}"}}')
    told = [f'{{"file": "{name}", "at": {at}}}' for name, at in preloads]
    if spoilt and rng.random() < 0.05 and told:
        told.append(told[0])
    text = f'{{"system": "{case.file("root.sys", sys_bytes)}", "preloads": [{", ".join(told)}], ' \
           f'"programs": [{", ".join(listed)}]}}'
    if spoilt and rng.random() < 0.05:
        text = spoil_text(rng, text)
    return case.file("b.json", text), cpus


def play_case(case, spoilt):
    rng = case.rng
    name, cpus = board_of(case, spoilt)
    items = [rng.randrange(cpus) for _ in range(rng.choice([0, 20, 200]))]
    if rng.random() < 0.3:
        items = [rng.choice([0, 0, 0, cpus - 1]) for _ in items]
    text = " ".join(map(str, items))
    if spoilt and rng.random() < 0.05:
        text = spoil_text(rng, text)
    return ["play", name, case.file("s.txt", text)]


def audit_case(case, spoilt):
    rng = case.rng
    words = play_case(case, spoilt)
    data = os.path.join(case.folder, "data")
    ran = subprocess.run([os.path.abspath(sys.argv[4]), *words], cwd=data, stdout=subprocess.PIPE)
    text = ran.stdout.decode()
    if rng.random() < 0.2:
        text = text.removeprefix("jailhouse journal 2\n")
    lines = text.splitlines(True)
    how = rng.randrange(7)
    if how == 1 and lines:
        text = "".join(lines[:rng.randrange(len(lines))])
    elif how == 2 and lines:
        k = rng.randrange(len(lines))
        del lines[k]
        text = "".join(lines)
    elif how == 3 and len(lines) > 1:
        k = rng.randrange(len(lines) - 1)
        lines[k], lines[k + 1] = lines[k + 1], lines[k]
        text = "".join(lines)
    elif how == 4 and text:
        k = rng.randrange(len(text))
        text = text[:k] + rng.choice("0123456789abf =\n-x") + text[k + 1:]
    elif how == 5:
        text = spoil_text(rng, text)
    elif how == 6 and lines:
        k = rng.randrange(len(lines))
        words_of = lines[k].split(" ", 1)
        lines[k] = f"{rng.randrange(16)} {words_of[1] if len(words_of) > 1 else ''}"
        text = "".join(lines)
    return ["audit", words[1], case.file("j.txt", text)]


def check_case(case, spoilt):
    sys_bytes, cell_bytes, _, _, _ = make_configs(case.rng, spoilt)
    names = [case.file(f"{k}.cell", it) for k, it in enumerate(cell_bytes)]
    return ["check", case.file("root.sys", sys_bytes), *names]


def main():
    asked = argparse.ArgumentParser(description=__doc__, allow_abbrev=False)
    asked.add_argument("count", type=int)
    asked.add_argument("seed", type=int)
    asked.add_argument("folder")
    asked.add_argument("plain")
    asked = asked.parse_args()
    count, seed, folder = asked.count, asked.seed, asked.folder
    for it in ("data", "cases"):
        os.makedirs(os.path.join(folder, it), exist_ok=True)
    for k in range(count):
        rng = random.Random(seed * 100000 + k)
        case = Case(f"r{seed}x{k}", folder, rng)
        kind = (play_case, play_case, check_case, audit_case)[k % 4]
        case.words(*kind(case, rng.random() < 0.45))


if __name__ == "__main__":
    main()
