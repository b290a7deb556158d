#!/usr/bin/env python3
"""boards.py FOLDER: writes the boards of the figures into FOLDER, a folder each, with the words of each call in
NAME.words (one word a line). README.md says what each board is."""
import argparse
import os
import struct
import sys

PAGE = 4096
READ, WRITE, EXECUTE, DMA, COMM, LOADABLE, SHARED = 1, 2, 4, 8, 0x20, 0x40, 0x80
PLAIN = READ | WRITE | EXECUTE | DMA
BASE = 1 << 32
CELLS = 16


def body(name, number, cpus, regions, devices=(), flags=0, timeout=0):
    """A configuration from its name on."""
    header = struct.pack("<32sII", name.encode(), number, flags)
    header += struct.pack("<8I", 8, len(regions), 0, 0, 0, len(devices), 0, 0)
    header += struct.pack("<IQQ32s", 0, 0, timeout, b"")
    assert len(header) == 124
    parts = struct.pack("<Q", sum(1 << cpu for cpu in cpus))
    parts += b"".join(struct.pack("<4Q", *region) for region in regions)
    return header + parts + b"".join(devices)


def cell(*what, **more):
    return b"JHCELL" + struct.pack("<H", 13) + body(*what, **more)


def system(*what, hypervisor=(0x7fc00000, 0x400000), ecam=0, **more):
    head = b"JHSYST" + struct.pack("<HI", 13, 0)
    head += struct.pack("<4Q", hypervisor[0], 0, hypervisor[1], 0) + bytes(32)
    head += struct.pack("<QBBH", ecam, 255 if ecam else 0, 0, 0) + bytes(8)
    assert len(head) == 96
    return head + body(*what, **more)


def device(bdf, first, peers, number, vectors=1):
    masks = (0xfffff000, 0xfffffe00 if vectors else 0, 0, 0, 0, 0)
    return struct.pack("<BBHH6IHHBBHHQIBBH", 3, 0, 0, bdf, *masks, 0, 0, 0, 0, vectors, 0, 0, first, number, peers, 1)


def write(board, name, what):
    folder = os.path.join(sys.argv[1], board)
    os.makedirs(folder, exist_ok=True)
    with open(os.path.join(folder, name), "wb") as file:
        file.write(what.encode() if isinstance(what, str) else what)


def words(board, name, *what):
    write(board, name + ".words", "\n".join(what) + "\n")


def page(place, flags=PLAIN, virt=None, pages=1):
    return (place, place if virt is None else virt, pages * PAGE, flags)


def check_board(name, regions_of, devices_of=lambda c: ()):
    """Root and fifteen cells: cell c has the regions and devices that are told, root is cell 0."""
    for c in range(CELLS):
        what = (f"cell{c}", c, [c], regions_of(c), devices_of(c))
        assert len(regions_of(c)) == 1024, (name, len(regions_of(c)))
        write(name, f"{c}.cell" if c else "root.sys", cell(*what) if c else system(*what))
    words(name, "check", "check", "root.sys", *(f"{c}.cell" for c in range(1, CELLS)))


def beside(c, r):
    """Places of each cell side by side, with a gap of a page."""
    return BASE + (c * 1024 + r) * 2 * PAGE


def by_turns(c, r):
    return BASE + (r * CELLS + c) * 2 * PAGE


# Root's addresses are its places; those of the cells begin at 0, in the order of their regions.
def at(c, r, place, flags=PLAIN, pages=1):
    return page(place, flags, None if c == 0 else r * 2 * PAGE, pages)


def sections(first_place, peers, own, flags):
    """The sections of a device in a row, addresses like places: a state table, the read/write section, outputs."""
    rights = [READ, READ | WRITE] + [READ | (WRITE if p == own else 0) for p in range(peers)]
    return [page(first_place + k * PAGE, right | flags) for k, right in enumerate(rights)]


def plan_board():
    """Fifteen demands beside a root of 1,024 regions."""
    regions = [page(BASE + r * 32 * PAGE, pages=16) for r in range(1024)]
    write("plan", "root.sys", system("root", 0, range(CELLS), regions))
    lines = (f"cell cell{c} {c} 1 {4 * PAGE}{' loadable' if c > 8 else ''}" for c in range(1, CELLS))
    write("plan", "demands.txt", "\n".join(lines) + "\n")
    words("plan", "plan", "plan", "root.sys", "demands.txt")


def few_linked(flags):
    """256 devices a cell: four with a link each through all sixteen cells, by 18 sections each; 252 that are alone,
    over 238 groups of four sections of their own."""
    def regions(c):
        found = [s for link in range(4) for s in sections(BASE + link * 32 * PAGE, 16, c, flags)]
        for group in range(238):
            found += sections(BASE + (1 << 24) + (c * 238 + group) * 8 * PAGE, 2, 0, flags)
        return found

    def devices(c):
        linked = [device(link, 18 * link, 16, c) for link in range(4)]
        return linked + [device(256 + c * 256 + d, 72 + 4 * (d % 238), 2, 0) for d in range(252)]
    return regions, devices


def all_linked(flags):
    """256 devices a cell, each on a link of four cells, over 170 groups of six sections; four pages more."""
    def regions(c):
        link = c // 4
        found = []
        for group in range(170):
            found += sections(BASE + (link * 170 + group) * 8 * PAGE, 4, c % 4, flags)
        return found + [page(BASE + (1 << 28) + (c * 4 + r) * 2 * PAGE) for r in range(4)]

    def devices(c):
        return [device(c // 4 * 256 + d, 6 * (d % 170), 4, c % 4) for d in range(256)]
    return regions, devices


def one_place():
    """256 devices a cell, all over the same eighteen sections, each on a link through all sixteen cells."""
    def regions(c):
        return sections(BASE, 16, c, 0) + [page(BASE + (1 << 24) + (c * 1024 + r) * 2 * PAGE) for r in range(1006)]
    return regions, lambda c: [device(d, 0, 16, c) for d in range(256)]


def check_boards():
    every = range(1024)
    check_board("check_a_disjoint", lambda c: [at(c, r, beside(c, r)) for r in every])
    check_board("check_b_all_shared", lambda c: [at(c, r, beside(0, r), PLAIN | SHARED) for r in every])
    check_board("check_c_one_shared", lambda c: [
        at(c, r, beside(c, r)) if r else at(c, r, BASE - 16 * PAGE, PLAIN | SHARED) for r in every])
    check_board("check_d_two_meet", lambda c: [at(c, r, beside(c, r), PLAIN, 3 if r == 512 else 1) for r in every])
    check_board("check_e_by_turns", lambda c: [at(c, r, by_turns(c, r)) for r in every])
    check_board("check_f_four_linked", *few_linked(0))
    check_board("check_g_four_linked_shared", *few_linked(SHARED))
    check_board("check_h_all_linked", *all_linked(0))
    check_board("check_i_all_linked_shared", *all_linked(SHARED))
    check_board("check_j_one_place", *one_place())


def board(name, root, preloads, programs, schedule=""):
    """A board with its files: preloads are bytes and where they lie, programs a cell, a CPU and lines."""
    write(name, "root.sys", root)
    for k, (_, what) in enumerate(preloads):
        write(name, f"{k}.bin", what)
    for k, (_, _, lines) in enumerate(programs):
        assert len(lines) <= 4096, len(lines)
        write(name, f"{k}.txt", "".join(line + "\n" for line in lines))
    told = ", ".join(f'{{"file": "{k}.bin", "at": {place}}}' for k, (place, _) in enumerate(preloads))
    listed = ", ".join(f'{{"cell": "{who}", "cpu": {cpu}, "file": "{k}.txt"}}'
                       for k, (who, cpu, _) in enumerate(programs))
    write(name, "board.json", f'{{"system": "root.sys", "preloads": [{told}], "programs": [{listed}]}}\n')
    write(name, "schedule.txt", schedule)
    words(name, "play", "play", "board.json", "schedule.txt")
    words(name, "audit", "audit", "board.json", "journal.txt")


MEMORY = (0x40000000, 0x40000000, 0x3fc00000, PLAIN)
FIRST = 0x50000000
CONFIGS = 0x48000000


def fifteen(name, place):
    """Root creates fifteen cells of 1,000 regions, and then accesses the pages between those that they close."""
    cells = [cell(f"cell{c + 1}", c + 1, [c + 1], [page(place(c, r), PLAIN, r * 2 * PAGE) for r in range(1000)])
             for c in range(15)]
    lines = [f"hvc 1 {CONFIGS + 0x10000 * c:#x} 0" for c in range(15)]
    # Every seventh place in order, and a page behind it.
    between = [place(k * 7 % 15, k * 7 // 15 % 1000) + PAGE + 8 * (k % 512) for k in range(2000)]
    lines += [f"write 8 {a:#x} {k + 1:#x}" for k, a in enumerate(between)]
    lines += [f"read 8 {a:#x}" for a in between]
    board(name, system("root", 0, range(16), [MEMORY]), [(CONFIGS + 0x10000 * c, it) for c, it in enumerate(cells)],
          [("root", 0, lines)])


def coming_and_going():
    it = cell("cell1", 1, [15], [page(FIRST + r * 2 * PAGE, PLAIN, r * 2 * PAGE) for r in range(1000)])
    lines = [f"hvc 1 {CONFIGS:#x} 0", "hvc 4 1 0"] * 2000
    board("creates_and_destroys", system("root", 0, range(16), [MEMORY]), [(CONFIGS, it)], [("root", 0, lines)])


def fourteen(name, place, flags, then, pages=1024):
    """Root creates fourteen cells of 1,024 regions, and then makes these calls about a fifteenth."""
    cells = [cell(f"cell{c + 1}", c + 1, [c + 1], [page(place(c, r), PLAIN | flags, r * 2 * PAGE) for r in range(1024)])
             for c in range(15)]
    lines = [f"hvc 1 {CONFIGS + 0x10000 * c:#x} 0" for c in range(14)] + then
    root = system("root", 0, range(16), [MEMORY], hypervisor=(0x7fc00000, pages * PAGE))
    board(name, root, [(CONFIGS + 0x10000 * c, it) for c, it in enumerate(cells)], [("root", 0, lines)])


def beside_fourteen():
    places = {
        "disjoint": (lambda c, r: FIRST + (c * 1024 + r) * 2 * PAGE, 0, 182),
        "by_turns": (lambda c, r: FIRST + (r * 15 + c) * 2 * PAGE, 0, 182),
        "shared": (lambda c, r: FIRST + r * 2 * PAGE, SHARED, 122),
    }
    create = f"hvc 1 {CONFIGS + 0x10000 * 14:#x} 0"
    for name, (place, flags, pages) in places.items():
        # A refusal for pages, of which there is one too few, comes after all others.
        fourteen("refusals_" + name, place, flags, [create] * 1000, pages)
        fourteen("fifteenth_" + name, place, flags, [create, "hvc 4 15 0"] * 500)


def starts():
    """Three cells of 64 KiB and a communication page, which make 56 accesses and then wait for the request."""
    memory = [(FIRST + c * 0x10000, 0, 0x10000, PLAIN | LOADABLE) for c in range(3)]
    comm = (0, 0x80000000, PAGE, READ | WRITE | COMM)
    cells = [cell(f"cell{c + 1}", c + 1, [c + 1], [memory[c], comm]) for c in range(3)]
    lines = [f"hvc 1 {CONFIGS + 0x1000 * c:#x} 0" for c in range(3)]
    lines += [f"hvc 2 {k % 3 + 1} 0" for k in range(4093)]
    own = []
    for k in range(28):
        own += [f"write 8 {8 * k + PAGE * (k % 16):#x} {k + 1:#x}", f"read 4 {8 * k + PAGE * (k % 16):#x}"]
    own += ["await 4 0x8000000c 1", "write 4 0x80000010 3"]
    board("starts", system("root", 0, range(4), [MEMORY]), [(CONFIGS + 0x1000 * c, it) for c, it in enumerate(cells)],
          [("root", 0, lines)] + [(f"cell{c + 1}", c + 1, own) for c in range(3)])


def many_pages():
    programs = []
    for cpu in range(16):
        own = [0x40000000 + (cpu * 2048 + k) * PAGE + 8 * (k % 512) for k in range(2048)]
        lines = [f"write 8 {a:#x} {k + 1:#x}" for k, a in enumerate(own)] + [f"read 8 {a:#x}" for a in own]
        programs.append(("root", cpu, lines))
    board("many_pages", system("root", 0, range(16), [MEMORY]), [], programs)


if __name__ == "__main__":
    asked = argparse.ArgumentParser(description=__doc__, allow_abbrev=False)
    asked.add_argument("folder")
    asked.parse_args()
    check_boards()
    fifteen("fifteen_beside", lambda c, r: FIRST + (c * 1000 + r) * 2 * PAGE)
    fifteen("fifteen_by_turns", lambda c, r: FIRST + (r * 15 + c) * 2 * PAGE)
    coming_and_going()
    beside_fourteen()
    starts()
    many_pages()
    words("soak", "soak", "soak", "400")
    plan_board()
