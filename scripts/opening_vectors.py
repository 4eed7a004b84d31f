#!/usr/bin/env python3
"""Writes the stored list of crates/commit_vectors: openings with the answer each has to get.

Digests are those of hashlib.blake2s. Every line is words and numbers: `tree` or `kept`, the answer (1 or 0),
the modulus, the degree, the width, the positions, the number of indices, the indices, the number of
coefficients, the coefficients of the rows; then, of a tree, the eight words of the root and the words of the
path's nodes, each word four bytes little-endian; of kept tables, the shelf's number, the number of shelves,
start, height and width of each, and the values.
"""
import hashlib
import random
import struct

random.seed(20)


def digest(data):
    return hashlib.blake2s(data).digest()


def words(data):
    return list(struct.unpack("<%dI" % (len(data) // 4), data))


def row_bytes(row):
    return b"".join(struct.pack("<I", x) for x in row)


def levels_of(rows):
    levels = [[digest(row_bytes(r)) for r in rows]]
    while len(levels[-1]) > 1:
        low = levels[-1]
        levels.append([digest(low[i] + low[i + 1]) for i in range(0, len(low), 2)])
    return levels


def path(levels, index):
    nodes = []
    for level in levels[:-1]:
        nodes.append(level[index ^ 1])
        index //= 2
    return nodes


def line(kind, answer, modulus, degree, width, positions, indices, flat, rest):
    numbers = [answer, modulus, degree, width, positions, len(indices)] + list(indices) + [len(flat)] + list(flat) + rest
    print(kind, *numbers)


def tree(answer, modulus, degree, width, positions, indices, flat, root, nodes):
    line("tree", answer, modulus, degree, width, positions, indices, flat, words(root) + words(b"".join(nodes)))


def other_byte(data, at):
    return data[:at] + bytes([data[at] ^ (1 << random.randrange(8))]) + data[at + 1:]


def other_number(flat, at, modulus):
    return flat[:at] + [(flat[at] + 1 + random.randrange(modulus - 1)) % modulus] + flat[at + 1:]


def trees(modulus, degree, width, positions):
    wide = width * degree
    rows = [[random.randrange(modulus) for _ in range(wide)] for _ in range(positions)]
    levels = levels_of(rows)
    root = levels[-1][0]

    def case(answer, indices, flat=None, root=root, nodes=None, width=width, positions=positions):
        own = [x for i in indices for x in rows[i % len(rows)]]
        ways = [n for i in indices for n in path(levels, i % len(rows))]
        tree(answer, modulus, degree, width, positions, indices, own if flat is None else flat, root, ways if nodes is None else nodes)

    last = positions - 1
    some = sorted({0, last, random.randrange(positions)})
    for i in some:
        case(1, [i])
    case(1, [random.randrange(positions) for _ in range(3)])
    case(1, [])
    i = random.randrange(positions)
    own, way = rows[i], path(levels, i)
    # a wrong element of the row, byte of the root, byte of each node; another index
    for at in range(min(wide, 3)):
        case(0, [i], flat=other_number(own, at, modulus))
    for at in (0, 13, 31):
        case(0, [i], root=other_byte(root, at))
    for k in range(len(way)):
        case(0, [i], nodes=way[:k] + [other_byte(way[k], random.randrange(32))] + way[k + 1:])
    if positions > 1:
        tree(0, modulus, degree, width, positions, [(i + 1) % positions], own, root, way)
        case(0, [i], nodes=way[:-1])
        case(0, [i], nodes=list(reversed(way)) if len(way) > 1 else [digest(b"")])
        case(0, [i], positions=positions // 2)
        case(0, [i, i], flat=own + own, nodes=way)
    # an index not below the positions, a node too many, positions that are no power of two, another width
    case(0, [i + positions])
    case(0, [i], nodes=way + [root])
    case(0, [i], positions=2 * positions)
    case(0, [i], positions=2 * positions + 1)
    case(0, [i], positions=0)
    case(0, [i], width=width + 1)
    case(0, [i], flat=own + [0] * degree)
    case(0, [i], flat=own[:-degree])
    case(0, [], flat=own)
    case(0, [], nodes=[root])


def kept(modulus, degree):
    wide = 2 * degree
    values = [random.randrange(modulus) for _ in range(1 + 4 * wide + 6 * degree)]
    shelves = [1, 4, wide, 1 + 4 * wide, 6, degree, 0, 2, 2 * wide]
    rest = lambda number: [number, len(shelves) // 3] + shelves + values

    def case(answer, number, width, positions, indices, flat):
        line("kept", answer, modulus, degree, width, positions, indices, flat, rest(number))

    row = lambda i: values[1 + i * wide:1 + (i + 1) * wide]
    small = lambda i: values[1 + 4 * wide + i * degree:1 + 4 * wide + (i + 1) * degree]
    for i in range(4):
        case(1, 0, 2, 4, [i], row(i))
    case(1, 0, 2, 2, [3, 0, 3], row(3) + row(0) + row(3))
    case(1, 1, 1, 6, [5, 2], small(5) + small(2))
    case(1, 7, 2, 4, [], [])
    case(0, 0, 2, 4, [1], row(2))
    for at in range(wide):
        case(0, 0, 2, 4, [1], other_number(row(1), at, modulus))
    case(0, 0, 2, 4, [4], values[1 + 4 * wide:1 + 5 * wide])
    case(0, 3, 2, 4, [0], row(0))
    case(0, 4294967295, 2, 4, [0], row(0))
    case(0, 0, 1, 4, [0], row(0)[:degree])
    case(0, 1, 2, 3, [0], small(0) + small(1))
    case(0, 0, 2, 4, [0], row(0) + row(1))
    case(0, 0, 2, 4, [0, 1], row(0))


for modulus in (257, 65537):
    for positions in (1, 2, 8, 1024):
        for degree, width in ((1, 1), (1, 4), (2, 2), (4, 16 if positions < 9 else 1)):
            trees(modulus, degree, width, positions)
    trees(modulus, 8, 2, 8)
    for degree in (1, 2, 4, 8):
        kept(modulus, degree)
