"""Writes cases for the program `cases`, each with pools of its own lengths, and the lines that they should give.

    python3 tools/cases.py CASES LINES
"""
import sys

from model import F, R, Shelf, run
from parcels import le_, long_, lst, node, prim, short, strs, two, views

ROOMY = [4096] * 11
TEXT = 4096


class Cases:
    def __init__(self):
        self.input, self.lines = [], []

    def add(self, lengths, calls, text=TEXT):
        stream = b''.join(calls)
        numbers = list(lengths) + [text, len(stream)]
        self.input.append(b''.join(n.to_bytes(4, 'big') for n in numbers) + stream)
        self.lines += run(stream, Shelf(list(lengths)), room=text) + ['--']


def all_kinds():
    """Parcels that take entries of every pool but the slip."""
    return [
        node('C', 3, [b'\1\2\3'], mask=b'\5'),
        prim('s', 2, 1, 2, 3),
        prim('i', 4, 1, 2),
        prim('l', 8, 1),
        node('b', 9, [b'\1\1']),
        strs('z', 4, [0, 2, 3], b'abc'),
        views('vz', [long_(13, b'abcd', 0, 0), short(b'hi')], [b'abcdefghijklm', b'xy']),
        lst('+l', 4, [0, 2, 2], two),
        node('+s', 2, kids=[two, prim('s', 2, 5, 6)]),
    ]


def needs(parcels):
    shelf = Shelf([1 << 20] * 11)
    for p in parcels:
        shelf.file(p)
    return shelf.marks[1:]


def nested(levels):
    column = node('+s', 0)
    for _ in range(levels - 1):
        column = node('+s', 0, kids=[column])
    return column


def lists_nested(levels, leaf):
    column = leaf
    for _ in range(levels - 1):
        column = lst('+l', 4, [0, 1], column)
    return column


def wide(nodes):
    """A column of so many nodes: structs of up to 255 fieldless structs."""
    if nodes <= 256:
        return node('+s', 0, kids=[node('+s', 0)] * (nodes - 1))
    return node('+s', 0, kids=[node('+s', 0)] * 254 + [node('+s', 0, kids=[node('+s', 0)] * (nodes - 256))])


def main():
    cases = Cases()
    # exactly full, and one entry short of each pool
    parcels = all_kinds()
    calls = [F(p) for p in parcels] + [R(j, r) for j in range(len(parcels)) for r in range(3)]
    exact = needs(parcels)
    cases.add(exact, calls)
    for pool in range(10):
        short_by_one = list(exact)
        short_by_one[pool] -= 1
        cases.add(short_by_one, calls)
    # the slip is not used by filing and reading, and pools may have no entries at all
    cases.add(exact[:10] + [0], calls)
    cases.add([0] * 11, [F(two), F(b''), R(0, 0)])
    # a denied parcel takes nothing: the next one finds the room that it needs
    cases.add(needs([two]), [F(two + b'\0'), F(prim('C', 1, 1, 2, 3)), F(two), F(two), R(0, 1), R(1, 0)])
    # limits of nodes and levels
    cases.add(ROOMY, [F(wide(256)), F(wide(257)), F(nested(8)), F(nested(9)), F(lists_nested(8, two)), F(lists_nested(9, two))]
              + [R(j, 0) for j in range(5)])
    # the text buffer: as long as the text, one byte short, and empty
    texts = [F(strs('z', 4, [0, 3], b'abc')), F(lst('+l', 4, [0, 2], two)), F(prim('l', 8, 1))]
    for room in (16, 8, 7, 6, 0):
        cases.add(ROOMY, texts + [R(0, 0), R(1, 0), R(2, 0)], text=room)
    # a long row of text fills 4,096 characters and not one more
    cases.add(ROOMY, [F(strs('z', 4, [0, 2047, 4094 - 2047 + 2048], b'a' * 4095)), R(0, 0), R(0, 1)])
    cases.add(ROOMY, [F(node('+w:1365', 3, kids=[prim('C', 1, *([7] * 4095))])), R(0, 2), F(node('+w:1366', 1, kids=[prim('C', 1, *([7] * 1366))])), R(1, 0)])
    # buffers named by later parcels, and one that is not there
    cases.add(ROOMY, [F(views('vz', [long_(13, b'abcd', 0, 0)], [b'abcdefghijklm'])), F(views('vz', [long_(13, b'abcd', 1, 0)], [0, 0])),
                      F(views('vz', [long_(13, b'abcd', 0, 0)], [1])), F(views('vz', [long_(13, b'abcd', 1, 0)], [0, b'abcdefghijklmn'])),
                      F(views('vu', [long_(14, b'abcd', 0, 0)], [1])), R(1, 0), R(2, 0), R(3, 0)])
    with open(sys.argv[1], 'wb') as out:
        out.write(b''.join(cases.input))
    with open(sys.argv[2], 'w') as out:
        out.write('\n'.join(cases.lines) + '\n')
    print(len(cases.input), 'cases,', sum(map(len, cases.input)), 'bytes,', len(cases.lines), 'lines')


main()
