"""usage: make_cases.py CASES EXPECTED -- test cases for check, read and write, answered by twin.py.

A case: 1 byte call (1 check, 2 read, 3 write); 4 bytes (high byte first, as all numbers) how many elements the input has; 4 bytes how many the lent
space has; the input as runs (see `runs`), of bytes or of numbers of 4 bytes. Before the call element k of the space is (k * 7 + 3) % 251.
Its line: the answer, and for read and write a checksum of the whole space after the call (see `checksum`).

Where a case is given a wanted answer ('N@P' a refusal, 'V G C' of a check, a count of the others), that answer
is one that document 01 or docs/DECISIONS.md gives for it, and twin.py must agree with it.
"""
import random
import sys
from collections import Counter

import twin

CALLS = {1: 'check', 2: 'read', 3: 'write'}
OCCUR = {1: ['book', 1, 2, 3, 4, 5, 6, 7, 8, 9],
         2: ['count', 1, 2, 3, 4, 5, 6, 7, 8, 9, 11],
         3: ['count', 1, 5, 6, 7, 8, 11, 12, 13]}
MIN, MAX = -2 ** 31, 2 ** 31 - 1

cases = bytearray()
lines = []
sections = []                       # (letter, number of cases before it, bytes before it)
tally = {call: Counter() for call in CALLS}
tally_h = {call: Counter() for call in CALLS}
inverse = {2: set(), 3: set()}      # inputs whose round trip has been asserted


# ---------------------------------------------------------------- running one case

def fill(room):
    return [(k * 7 + 3) % 251 for k in range(room)]


def checksum(space):
    s = 1
    for e in space:
        s = (s * 31 + e % 2 ** 32) % 65521
    return s


def assert_inverses(call, data):
    """Read then write, or write then read, gives back an accepted input."""
    key = bytes(data) if call < 3 else tuple(data)
    kind = 3 if call == 3 else 2
    if key in inverse[kind]:
        return
    inverse[kind].add(key)
    plain, book = [0] * 80000, [0] * 70000
    if kind == 2:
        _, n = twin.read(key, plain)
        _, m = twin.write(plain[:n], book)
        assert bytes(book[:m]) == key
    else:
        _, n = twin.write(data, book)
        assert twin.check(bytes(book[:n]))[0] == 'book'
        _, m = twin.read(bytes(book[:n]), plain)
        assert plain[:m] == list(data)


def runs(data, width):
    """The input as runs: how many elements (4 bytes), how many make the block (2 bytes), and the block, which is repeated."""
    out, literal, at = bytearray(), bytearray(), 0

    def emit(times, block):
        for k in range(0, len(block), width * 60000):
            piece = block[k:k + width * 60000]
            out.extend((times * len(piece) // width).to_bytes(4, 'big') + (len(piece) // width).to_bytes(2, 'big') + piece)

    while at < len(data):
        size = data.find(data[at:at + 16], at + 1, at + 4000) - at if at + 32 < len(data) else 0
        times = 1
        if size > 0 and size % width == 0:
            while times < 65535 and data[at + times * size:at + (times + 1) * size] == data[at:at + size]:
                times += 1
        if times > 1 and (times - 1) * size > 16:
            emit(1, literal)
            literal = bytearray()
            emit(times, data[at:at + size])
            at += times * size
        else:
            literal += data[at:at + width]
            at += width
    emit(1, literal)
    return out


def add(call, data, room, want=None):
    assert len(data) <= (80000 if call == 3 else 65600)
    assert room <= {1: 0, 2: 80000, 3: 70000}[call]
    space = fill(room)
    if call == 1:
        answer = twin.check(bytes(data))
    elif call == 2:
        answer = twin.read(bytes(data), space)
        alone = twin.check(bytes(data))
        assert alone == answer or (alone[0] == 'book' and answer in (('count', answer[1]), ('refused', 11, 0)))
    else:
        answer = twin.write(list(data), space)
    written = answer[1] if answer[0] == 'count' else 0
    assert written <= room and space[written:] == fill(room)[written:]
    if answer[0] != 'refused':
        assert_inverses(call, data)
        got = ' '.join(str(a) for a in answer[1:])
    else:
        got = '%d@%d' % answer[1:]
    assert want is None or str(want) == got, (CALLS[call], data[:80], room, want, got)
    key = answer[1] if answer[0] == 'refused' else answer[0]
    tally[call][key] += 1
    if sections[-1][0] == 'h':
        tally_h[call][key] += 1
    cases.extend(bytes([call]) + len(data).to_bytes(4, 'big') + room.to_bytes(4, 'big'))
    if call < 3:
        cases.extend(runs(bytes(data), 1))
    else:
        cases.extend(runs(b''.join((x % 2 ** 32).to_bytes(4, 'big') for x in data), 4))
    lines.append(' '.join(str(a) for a in answer) + ('' if call == 1 else ' %d' % checksum(space)))


def section(letter):
    sections.append((letter, len(lines), len(cases)))


# ---------------------------------------------------------------- inputs: fields, clauses, books

def n2(n):
    return bytes([n // 256, n % 256])


def fld(tag, value):
    return bytes([tag]) + n2(len(value)) + bytes(value)


def hdr(v, g):
    return fld(1, n2(v) + n2(g))


def cl(*nums):
    return fld(2, b''.join(n2(n) for n in nums))


E = fld(0, b'')


def book_of(v, g, clauses):
    """clauses: (group, body, head)"""
    return hdr(v, g) + b''.join(cl(c, h, *b) for c, b, h in clauses) + E


def plain_of(v, g, clauses):
    plain = [v, g]
    for c, b, h in clauses:
        plain += [c] + [-x for x in b] + ([h] if h else []) + [0]
    return plain


def hexb(text):
    return bytes.fromhex(text)


def check(b, want=None):
    add(1, b, 0, want)


def read(b, room, want=None):
    add(2, b, room, want)


def write(p, room, want=None):
    add(3, p, room, want)


def bad_book(b, want):
    """A refused book: check; read with room for all and with none (its refusal against 11)."""
    check(b, want)
    read(b, 90, want)
    read(b, 0, want)


def good_book(b, want):
    """An accepted book: check; read with exact room, one less, more."""
    check(b, want)
    n = twin.read(b, [0] * 80000)[1]
    read(b, n, n)
    read(b, n - 1, '11@0')
    read(b, n + 3, n)


def bad_form(p, want):
    """A refused plain form: write with room for all and with none (its refusal against 11)."""
    write(p, 120, want)
    write(p, 0, want)


def good_form(p, n):
    """An accepted plain form of n bytes: write with exact room, one less, more."""
    write(p, n, n)
    write(p, n - 1, '11@0')
    write(p, n + 3, n)


def good(v, g, clauses):
    """A good book both ways."""
    good_book(book_of(v, g, clauses), '%d %d %d' % (v, g, len(clauses)))
    good_form(plain_of(v, g, clauses), len(book_of(v, g, clauses)))


X = (3, 5, [(0, [3], 0), (1, [], 1), (2, [1], 3), (3, [], 2), (4, [2], 3), (5, [1], 2)])
XB = book_of(*X)
XP = [3, 5, 0, -3, 0, 1, 1, 0, 2, -1, 3, 0, 3, 2, 0, 4, -2, 3, 0, 5, -1, 2, 0]
H = hdr(3, 2)
assert len(XB) == 60 and plain_of(*X) == XP and len(XP) == 23
UP33 = list(range(1, 34))
NEG32 = [-v for v in range(1, 33)]


def section_a():
    # X through check: 3 variables, 5 groups, 6 clauses
    check(XB, '3 5 6')
    # X read with exact room, one less, more, none
    read(XB, 23, 23)
    read(XB, 22, '11@0')
    read(XB, 30, 23)
    read(XB, 0, '11@0')
    # X's plain form written with exact room, one less, more, none
    write(XP, 60, 60)
    write(XP, 59, '11@0')
    write(XP, 64, 60)
    write(XP, 0, '11@0')


def section_b():
    # case 13: empty input, an end first, a header and nothing
    check(b'', '2@0')
    check(hexb('000000'), '4@0')
    check(hexb('01000400010000'), '2@7')
    # case 14: 32 groups pass, 33 give 7
    check(hdr(1, 32) + E, '1 32 0')
    check(hdr(1, 33) + E, '7@0')
    write([1, 32], 10, 10)
    write([1, 33], 10, '7@1')
    # case 14: 1,024 variables pass, 1,025 give 7
    check(hdr(1024, 0) + E, '1024 0 0')
    check(hdr(1025, 0) + E, '7@0')
    write([1024, 0], 10, 10)
    write([1025, 0], 10, '7@0')
    # case 14: clause length 68 passes, 70 gives 5
    check(hdr(40, 1) + cl(1, 0, *UP33[:32]) + E, '40 1 1')
    check(hdr(40, 1) + cl(1, 0, *UP33) + E, '5@7')
    write([40, 1, 1] + NEG32 + [0], 81, 81)
    write([40, 1, 1] + NEG32 + [-33, 0], 90, '5@35')
    # case 14: 2,048 clauses pass, 2,049 give 6
    check(book_of(2, 1, [(1, [], 2)] + [(0, [], 0)] * 2047), '2 1 2048')
    check(book_of(2, 1, [(1, [], 2)] + [(0, [], 0)] * 2048), '6@14343')
    write(plain_of(2, 1, [(1, [], 2)] + [(0, [], 0)] * 2047), 14346, 14346)
    write(plain_of(2, 1, [(1, [], 2)] + [(0, [], 0)] * 2048), 14400, '6@4099')


def section_c():
    # 2: a field is due and 0, 1 or 2 bytes remain, at the first and at later fields
    for cut in (b'', b'\x01', b'\x01\x00', b'\x02\x00'):
        bad_book(cut, '2@0')
        bad_book(H + cut, '2@7')
        bad_book(H + cl(1, 2, 3) + cut, '2@16')
    bad_book(hdr(1, 0), '2@7')
    # 2: a length runs past the end by one byte, by many, by the whole of it
    bad_book(hexb('0100040003 00'), '2@0')
    bad_book(hexb('010004'), '2@0')
    bad_book(hexb('01FFFF') + bytes(4), '2@0')
    bad_book(H + hexb('020006 0001 0002 00'), '2@7')
    bad_book(H + hexb('02FFFF 0001 0002'), '2@7')
    bad_book(H + hexb('000001'), '2@7')
    # 2: X cut at every place
    for k in range(60):
        at = max([0] + [p for p in (7, 16, 23, 32, 39, 48, 57) if p <= k])
        check(XB[:k], '2@%d' % at)
        read(XB[:k], k % 5 * 6, '2@%d' % at)
    # X damaged at every byte
    for k in range(60):
        for byte in (0, 255, XB[k] + 1, XB[k] ^ 2):
            check(XB[:k] + bytes([byte]) + XB[k + 1:])
            read(XB[:k] + bytes([byte]) + XB[k + 1:], 40)
    # 3: unknown tags, 3 among them, first, in the middle, where the end is due
    for tag in (3, 4, 5, 16, 17, 127, 128, 255):
        bad_book(fld(tag, b''), '3@0')
        bad_book(H + fld(tag, n2(1) + n2(2)) + E, '3@7')
        bad_book(H + cl(1, 2, 3) + fld(tag, b'') + E, '3@16')
    # 4: a first field that is no header; a header later, also an equal one
    bad_book(E, '4@0')
    bad_book(cl(0, 0) + E, '4@0')
    bad_book(H + H + E, '4@7')
    bad_book(H + cl(0, 0) + hdr(1, 1) + E, '4@14')
    bad_book(XB[:57] + hdr(3, 5) + E, '4@57')
    # 5: lengths of header, end, clause
    for length in (0, 1, 2, 3, 5, 6, 8, 260):
        bad_book(fld(1, (hexb('00010001') + bytes(300))[:length]) + E, '5@0')
    for length in (1, 2, 3, 256):
        bad_book(H + fld(0, bytes(length)), '5@7')
        bad_book(H + cl(2, 3) + fld(0, bytes(length)), '5@14')
    for length in (0, 1, 2, 3, 5, 7, 67, 69, 70, 72, 256, 260):
        bad_book(hdr(200, 2) + fld(2, (n2(1) + n2(2) + b''.join(n2(v) for v in range(1, 150)))[:length]) + E, '5@7')
    bad_book(H + cl(1, 2) + fld(2, bytes(2)) + E, '5@14')
    # 6 is in b and e (only 2,049 clauses can give it)
    # 7: numbers of header and clause, at the field
    bad_book(hdr(0, 0) + E, '7@0')
    bad_book(hdr(1025, 0) + E, '7@0')
    bad_book(hdr(1, 33) + E, '7@0')
    bad_book(H + cl(3, 0) + E, '7@7')
    bad_book(H + cl(0, 4) + E, '7@7')
    bad_book(H + cl(0, 0, 0) + E, '7@7')
    bad_book(H + cl(0, 0, 4) + E, '7@7')
    bad_book(H + cl(0, 0, 1, 2, 4) + E, '7@7')
    bad_book(H + cl(1, 1, 1) + cl(0, 1, 65535) + E, '7@16')
    bad_book(H + cl(1, 1, 1) + cl(256, 1) + E, '7@16')
    # 8: a body equal or falling, at its start and at its end
    bad_book(H + cl(0, 0, 1, 1) + E, '8@7')
    bad_book(H + cl(0, 0, 2, 1) + E, '8@7')
    bad_book(H + cl(0, 0, 1, 3, 2) + E, '8@7')
    bad_book(H + cl(0, 0, 1, 2, 2) + E, '8@7')
    bad_book(H + cl(2, 3, 1, 2, 3) + cl(2, 3, 3, 1, 2) + E, '8@20')
    bad_book(hdr(1024, 0) + cl(0, 0, 255, 256, 255) + E, '8@7')
    bad_book(hdr(1024, 0) + cl(0, 0, 257, 256) + E, '8@7')
    # 9: bytes after the end
    bad_book(H + E + b'\x00', '9@10')
    bad_book(H + E + E, '9@10')
    bad_book(H + E + H, '9@10')
    bad_book(XB + b'\x07', '9@60')
    bad_book(XB + XB, '9@60')
    # 11 while reading: room against the count needed
    for room, want in ((0, '11@0'), (1, '11@0'), (2, 2), (3, 2)):
        read(hdr(9, 3) + E, room, want)
    for room, want in ((0, '11@0'), (4, '11@0'), (5, '11@0'), (6, 6), (7, 6)):
        read(H + cl(2, 3, 1) + E, room, want)
    # 7 while writing: header, group, literal, at the index
    bad_form([0], '7@0')
    bad_form([0, 0], '7@0')
    bad_form([1025, 0], '7@0')
    bad_form([5, 33], '7@1')
    bad_form([5, -1], '7@1')
    bad_form([3, 2, 3, 0], '7@2')
    bad_form([3, 2, -1, 0], '7@2')
    bad_form([3, 2, 1, 0, 3, 0], '7@4')
    bad_form([3, 2, 1, 4, 0], '7@3')
    bad_form([3, 2, 1, -4, 0], '7@3')
    bad_form([3, 2, 1, -1, -2, -4, 0], '7@5')
    bad_form([3, 2, 1, -1, -2, 4, 0], '7@5')
    bad_form([3, 2, 1, 0, 2, 2, 0, 0, 1, 4, 0], '7@9')
    # 13 while writing
    bad_form([3, 2, 1, 1, 2, 0], '13@4')
    bad_form([3, 2, 1, 2, 1, 0], '13@4')
    bad_form([3, 2, 1, -1, 2, 2, 0], '13@5')
    bad_form([3, 2, 1, 1, 0, 2, -1, 2, 3, 0], '13@8')
    # 8 while writing: equal, falling, after the head
    bad_form([3, 2, 1, -1, -1, 0], '8@4')
    bad_form([3, 2, 1, -2, -1, 0], '8@4')
    bad_form([3, 2, 1, -1, -3, -2, 0], '8@5')
    bad_form([3, 2, 1, 1, -2, 0], '8@4')
    bad_form([3, 2, 1, 1, -1, 0], '8@4')
    bad_form([3, 2, 1, 1, 0, 0, -2, 3, -3, 0], '8@8')
    # 5 while writing: the 33rd body literal, in the first and in a later clause
    bad_form([40, 1, 1] + NEG32 + [-33, 0], '5@35')
    bad_form([40, 1, 1] + NEG32 + [-40, 7, 0], '5@35')
    bad_form([40, 1, 0, 0, 1] + NEG32 + [-33, -34, 0], '5@37')
    # 12 while writing: place is the length
    bad_form([], '12@0')
    bad_form([5], '12@1')
    bad_form([1, 0, 0], '12@3')
    bad_form([3, 2, 1, -1], '12@4')
    bad_form([3, 2, 1, -1, 2], '12@5')
    bad_form([3, 2, 1, -1, 2, 0, 2], '12@7')
    # X's plain form cut at every place: accepted after the header and after each 0, else 12
    for k in range(23):
        n = {2: 10, 5: 19, 8: 26, 12: 35, 15: 42, 19: 51}.get(k)
        write(XP[:k], 60, n or '12@%d' % k)
    # 11 while writing: room against this book's length
    for room, want in ((0, '11@0'), (9, '11@0'), (10, 10), (11, 10)):
        write([9, 3], room, want)
    for room, want in ((0, '11@0'), (10, '11@0'), (18, '11@0'), (19, 19), (20, 19)):
        write([3, 2, 2, -1, 3, 0], room, want)
    # 1 is in e (only inputs beyond 65,535 bytes can give it)


def section_d():
    # 2 before 3
    bad_book(hexb('050001'), '2@0')
    bad_book(hexb('05'), '2@0')
    bad_book(hexb('0500'), '2@0')
    bad_book(H + hexb('050001'), '2@7')
    bad_book(H + hexb('FFFF'), '2@7')
    # 2 before 4
    bad_book(hexb('000001'), '2@0')
    bad_book(hexb('020006 0000 0000'), '2@0')
    bad_book(H + hexb('010004 000300'), '2@7')
    bad_book(H + hexb('0100'), '2@7')
    # 2 before 5
    bad_book(hexb('010005 00030002'), '2@0')
    bad_book(hexb('010003 0003'), '2@0')
    bad_book(H + hexb('020005 00010002'), '2@7')
    bad_book(H + hexb('020003 0001'), '2@7')
    bad_book(H + hexb('020046') + bytes(69), '2@7')
    bad_book(H + hexb('000002 00'), '2@7')
    # 2 before 7 and 8 (6: in e)
    bad_book(hexb('010004 000000'), '2@0')
    bad_book(hexb('010004 FFFFFF'), '2@0')
    bad_book(H + hexb('020006 0009 0009'), '2@7')
    bad_book(H + hexb('02000A 0000 0000 0002 0001'), '2@7')
    # 3 before 4, 5, 7, 8
    bad_book(hexb('050000'), '3@0')
    bad_book(hexb('030000') + H + E, '3@0')
    bad_book(H + hexb('030001 00') + E, '3@7')
    bad_book(H + fld(3, bytes(70)) + E, '3@7')
    bad_book(H + fld(3, n2(9) + n2(9) + n2(0)) + E, '3@7')
    bad_book(H + fld(6, n2(0) + n2(0) + n2(2) + n2(1)) + E, '3@7')
    # 4 before 5
    bad_book(hexb('00000107'), '4@0')
    bad_book(hexb('020003000000'), '4@0')
    bad_book(fld(2, bytes(70)) + E, '4@0')
    bad_book(H + hexb('010000') + E, '4@7')
    bad_book(H + hexb('010003000102') + E, '4@7')
    # 4 before 7 and 8
    bad_book(cl(9, 9, 0) + E, '4@0')
    bad_book(cl(0, 0, 2, 1) + E, '4@0')
    bad_book(H + hdr(0, 0) + E, '4@7')
    bad_book(H + hdr(1025, 33) + E, '4@7')
    # 5 before 7, 8 (6: in e)
    bad_book(fld(1, bytes(5)) + E, '5@0')
    bad_book(fld(1, bytes(2)) + E, '5@0')
    bad_book(fld(1, hexb('FFFFFFFFFF')) + E, '5@0')
    bad_book(fld(1, hexb('FFFFFFFFFFFF')) + E, '5@0')
    bad_book(H + fld(2, n2(9)) + E, '5@7')
    bad_book(H + fld(2, n2(9) + n2(9) + b'\x00') + E, '5@7')
    bad_book(H + fld(2, n2(9) + bytes(68)) + E, '5@7')
    bad_book(hdr(40, 1) + cl(1, 0, *reversed(UP33)) + E, '5@7')
    bad_book(H + fld(2, bytes(4) + n2(2) + n2(1) + b'\x00') + E, '5@7')
    # 7 before 8 inside one field, both orders of position in the body; 7 at group and head with a falling body
    bad_book(H + cl(0, 0, 2, 1, 4) + E, '7@7')
    bad_book(H + cl(0, 0, 4, 2, 1) + E, '7@7')
    bad_book(H + cl(0, 0, 2, 1, 0) + E, '7@7')
    bad_book(H + cl(0, 0, 0, 2, 1) + E, '7@7')
    bad_book(H + cl(0, 0, 1, 0) + E, '7@7')
    bad_book(H + cl(0, 0, 0, 0) + E, '7@7')
    bad_book(H + cl(0, 0, 4, 4) + E, '7@7')
    bad_book(H + cl(3, 0, 2, 1) + E, '7@7')
    bad_book(H + cl(0, 4, 2, 1) + E, '7@7')
    # other zero and header inputs
    bad_book(hdr(0, 33) + E, '7@0')
    good_book(hdr(1, 0) + E, '1 0 0')
    # field by field: a fault in an earlier field wins over any fault in a later one
    faults = [(3, fld(5, b'')), (4, hdr(3, 2)), (5, fld(2, bytes(5))), (5, fld(0, bytes(1))),
              (7, cl(3, 0)), (7, cl(0, 0, 4)), (8, cl(0, 0, 2, 1))]
    tails = faults + [(2, b''), (2, hexb('020004 00')), (9, E + b'\x00'), (0, E)]
    for number, fault in faults:
        for _, tail in tails:
            b = H + cl(1, 2) + fault + tail
            check(b, '%d@14' % number)
            read(b, 7, '%d@14' % number)
    for number, fault in ((5, fld(1, bytes(3))), (5, fld(1, bytes(6))), (7, hdr(0, 2)), (7, hdr(3, 33)),
                          (3, fld(9, bytes(4))), (4, cl(0, 0)), (4, E)):
        for _, tail in tails:
            b = fault + tail
            check(b, '%d@0' % number)
            read(b, 7, '%d@0' % number)
    # 9 over what the bytes after the end would be as fields: 2, 3, 4, 5, 7, 8
    for tail in (b'\x01', b'\x02\x00', fld(5, b''), H, fld(2, bytes(5)), cl(9, 9), cl(0, 0, 2, 1), b'\x05\x00\x01'):
        bad_book(H + cl(1, 2, 3) + E + tail, '9@19')
    # header numbers while writing: 7 before 12 if the number exists
    bad_form([0], '7@0')
    bad_form([1025], '7@0')
    bad_form([-1], '7@0')
    bad_form([], '12@0')
    bad_form([5], '12@1')
    bad_form([5, 99], '7@1')
    bad_form([0, 99], '7@0')
    bad_form([0, 2, 3], '7@0')
    bad_form([5, 33, 40], '7@1')
    # where a plain form may end
    bad_form([1, 0, 0], '12@3')
    good_form([1, 0, 0, 0], 17)
    good_form([1, 0, 0, 0, 0, 0], 24)
    # 7 before 13, 8 and 5 at a literal
    bad_form([2, 0, 0, 1, 3], '7@4')
    bad_form([2, 0, 0, 1, 3, 0], '7@4')
    bad_form([3, 0, 0, 1, -4, 0], '7@4')
    bad_form([40, 0, 0] + NEG32 + [-41, 0], '7@35')
    bad_form([40, 0, 0] + NEG32 + [MIN, 0], '7@35')
    bad_form([40, 0, 0] + NEG32 + [7, -41, 0], '7@36')
    bad_form([40, 0, 0] + NEG32 + [7, 41, 0], '7@36')
    # 8 before 5: the 33rd body literal falls, repeats, comes after the head
    bad_form([40, 0, 0] + NEG32 + [-31, 0], '8@35')
    bad_form([40, 0, 0] + NEG32 + [-32, 0], '8@35')
    bad_form([40, 0, 0] + NEG32 + [7, -33, 0], '8@36')
    bad_form([40, 0, 0] + [-v for v in range(2, 34)] + [-1, 0], '8@35')
    # 13 with 32 body literals before it; 33 literals in all accepted
    bad_form([40, 0, 0] + NEG32 + [7, 7, 0], '13@36')
    good_form([40, 0, 0] + NEG32 + [7, 0], 81)
    bad_form([2, 0, 0, 1, 1, 0], '13@4')
    # the first faulty number wins, 13 before a later 8 and the other way
    bad_form([3, 2, 0, -2, -1, -4, 0], '8@4')
    bad_form([3, 2, 0, -4, -2, -1, 0], '7@3')
    bad_form([3, 0, 0, -1, 2, -3, 0], '8@5')
    bad_form([3, 0, 0, 1, 2, -3, 0], '13@4')
    bad_form([3, 0, 0, 1, -3, 2, 0], '8@4')
    bad_form([3, 0, 0, 1, 2, 4, 0], '13@4')
    # every kind of fault while writing, followed by every other and by an end without 0 (each against 12, 11)
    clauses = [(7, 0, [3]), (7, 0, [-1]), (7, 1, [1, 4]), (7, 2, [1, -1, -41]), (13, 2, [1, 1, 2]),
               (8, 2, [1, -2, -1]), (8, 2, [1, -2, -2]), (8, 2, [1, 2, -3]), (5, 33, [1] + NEG32 + [-33])]
    for number, where, one in clauses:
        wide = [40, 2] if where == 33 else [3, 2]
        for head in (wide, wide + [2, -1, 3, 0]):
            want = '%d@%d' % (number, len(head) + where)
            write(head + one, 0, want)                  # runs out right after the faulty number: 12, 11
            write(head + one + [0], 120, want)
            write(head + one + [0, 1], 120, want)       # runs out later
            if where == 33 and len(head) > 2:
                continue
            for _, _, two in clauses[:-1]:
                write(head + one + [0] + two + [0], 3, want)
                write(head + one + two[1:] + [0], 3, want)
    # 12 before 11; 12 before nothing else (all earlier numbers are good)
    bad_form([3, 2, 2, -1, 3, 0, 1, -1, -2, 3], '12@10')


def long_book(total, clauses, seed):
    """A book of `total` bytes in `clauses` clauses, 1,024 variables, 32 groups."""
    rng = random.Random(seed)
    left = (total - 10 - 7 * clauses) // 2
    assert total == 10 + 7 * clauses + 2 * left
    sizes = [32, 0, 1, 31] + [left // clauses] * (clauses - 4)
    k = 4
    while sum(sizes) < left:
        sizes[k] += 1
        k += 1
    while sum(sizes) > left:
        sizes[k] -= 1
        k += 1
    result, made = [], {}
    for k, size in enumerate(sizes):                    # a pattern of 16 clauses of each size, so that the cases stay small
        if (size, k % 16) not in made:
            body = sorted(rng.sample(range(1, 1025), size))
            made[size, k % 16] = (rng.randrange(33), body, rng.randrange(1, 1025) if k % 16 == 1 else 0)
        result.append(made[size, k % 16])
    assert len(book_of(1024, 32, result)) == total
    return 1024, 32, result


def section_e():
    # 65,535 bytes: check, read with exact room
    largest = long_book(65535, 2047, 1)
    b, p = book_of(*largest), plain_of(*largest)
    check(b, '1024 32 2047')
    read(b, len(p), len(p))
    # 65,535 bytes written with exact room, and with one byte too little
    write(p, 65535, 65535)
    write(p, 65534, '11@0')
    # 65,536 bytes, good but for that: 1
    longer = long_book(65536, 2048, 2)
    b, p = book_of(*longer), plain_of(*longer)
    check(b, '1@0')
    read(b, 40000, '1@0')
    # 1 before each other refusal of a book
    wide = hdr(1024, 32) + cl(0, 0, *range(1, 33)) * 900
    for other in (wide + hexb('02ffff'), wide + fld(3, b'') + E, wide + hdr(3, 2) + E, wide + fld(2, bytes(2)) + E, hdr(2, 1) + cl(0, 0, 1, 2) * 2049 + E,
                  wide + cl(33, 0) + E, wide + cl(0, 0, 2, 1) + E, wide + E + bytes(1)):
        check(other + bytes(max(0, 65536 - len(other))), '1@0')
        read(other + bytes(max(0, 65536 - len(other))), 0, '1@0')
    # 65,536 bytes written with enough room: 1; with none: 1 before 11
    write(p, 70000, '1@0')
    write(p, 0, '1@0')
    # a fault of the form comes before 1, wherever it stands
    clause = [0] + [-v for v in range(1, 33)] + [0]
    form = [1024, 32] + clause * 1000
    for fault, number, where in (([33, 0], 7, 0), ([0, 1, 2, 0], 13, 2), ([0, -2, -1, 0], 8, 2), (clause[:-1] + [-33, 0], 5, 33)):
        write(form + fault, 0, '%d@%d' % (number, len(form) + where))
    write([1024, 32] + clause * 2048 + [33], 0, '6@%d' % (2 + 34 * 2048))
    # a form too long in its complete clauses, then a clause that lacks its 0: 12 before 1 and 11: here
    # a length tested at each number and one tested at each clause's 0 both come too early
    cut = plain_of(*long_book(65536, 2046, 3)) + [7]
    write(cut, 0, '12@%d' % len(cut))
    # 65,536 zero bytes give 1 and not 4, 65,535 give 4
    check(bytes(65536), '1@0')
    check(bytes(65535), '4@0')
    # clause 2,049 with each kind of fault; 2,048 and 2,049 good clauses and the end after 2,048 are in b
    full = hdr(2, 1) + cl(0, 0) * 2048
    at = len(full)
    check(full + hexb('020006 0000 0000'), '2@%d' % at)             # 2 before 6
    check(full + fld(3, bytes(4)) + E, '3@%d' % at)                 # 3 before 6
    check(full + hdr(1, 1) + E, '4@%d' % at)                        # 4 before 6
    check(full + fld(2, bytes(2)) + E, '5@%d' % at)                 # 5 before 6
    check(full + fld(2, bytes(70)) + E, '5@%d' % at)                # 5 before 6
    read(full + cl(2, 0) + E, 0, '6@%d' % at)                       # 6 before 7 and 11
    check(full + cl(0, 0, 2, 1) + E + b'\x00', '6@%d' % at)         # 6 before 8 and 9
    # a fault in an earlier clause before a later clause 2,049
    for number, fault in ((3, fld(5, b'')), (4, hdr(3, 2)), (5, fld(2, bytes(5))), (7, cl(3, 0)), (8, cl(0, 0, 2, 1))):
        check(H + fault + cl(0, 0) * 2049 + E, '%d@7' % number)
        read(H + fault + cl(0, 0) * 2049 + E, 0, '%d@7' % number)
    for number, fault, where in ((7, [3, 0], 2), (13, [0, 1, 1, 0], 4), (8, [0, -2, -1, 0], 4), (5, [0] + NEG32 + [-33, 0], 35)):
        write([40, 2] + fault + [1, 0] * 2049, 0, '%d@%d' % (number, where))
    # writing clause 2,049: 6 before 7 at its group, before its literals, 12 and 11
    full = [1, 1] + [0, 0] * 2048
    write(full + [2, 2, 1, 1, -1, 0], 0, '6@%d' % len(full))
    write(full + [0], 14400, '6@%d' % len(full))


def section_f():
    # header edges, all pairs, and header numbers whose bytes would mislead a one-byte reader
    for v in (0, 1, 2, 255, 256, 1023, 1024, 1025, 1280, 32768, 65535):
        for g in (0, 1, 31, 32, 33, 256, 65535):
            fine = 1 <= v <= 1024 and g <= 32
            check(hdr(v, g) + E, '%d %d 0' % (v, g) if fine else '7@0')
            read(hdr(v, g) + E, 2, 2 if fine else '7@0')
            write([v, g], 12, 10 if fine else '7@1' if 1 <= v <= 1024 else '7@0')
    # zero group, zero head, both, and the always false clause
    good(3, 2, [(0, [], 1)])
    good(3, 2, [(2, [1, 2], 0)])
    good(3, 2, [(0, [1, 2], 0)])
    good(1, 0, [(0, [], 0)])
    good(1, 1, [(1, [], 0)])
    # case 9 and case 10, the empty book and the always false core
    good(1, 0, [])
    good(1, 0, [(0, [], 0)] * 3)
    # only group 0 in a book of no group
    bad_book(hdr(1, 0) + cl(1, 0) + E, '7@7')
    bad_form([1, 0, 1, 0], '7@2')
    # a head in its own body: first, in the middle, last
    good(3, 1, [(1, [1], 1)])
    good(3, 1, [(1, [1, 2, 3], 1), (1, [1, 2, 3], 2), (0, [1, 2, 3], 3)])
    # equal clauses
    good(3, 2, [(1, [1, 2], 3)] * 3)
    good(3, 2, [(2, [], 0)] * 2)
    # groups with no clause; groups not in order
    good(3, 5, [(5, [1], 2)])
    good(3, 5, [(4, [1], 2), (2, [], 1), (0, [3], 0), (4, [], 3)])
    # bodies of 0, 1, 31, 32 variables, with and without head; 33 refused
    for size in (0, 1, 2, 31, 32):
        for head in (0, 1, 40):
            good(40, 1, [(1, list(range(3, 3 + size)), head)])
    bad_book(hdr(40, 1) + cl(1, 5, *UP33) + E, '5@7')
    bad_form([40, 1, 1] + [-v for v in UP33] + [5, 0], '5@35')
    # the largest numbers: variable 1,024 in body and head, group 32; one more is 7
    good(1024, 32, [(32, [1, 255, 256, 257, 511, 512, 1023, 1024], 1024)])
    bad_book(hdr(1024, 32) + cl(33, 1) + E, '7@7')
    bad_book(hdr(1024, 32) + cl(32, 1025) + E, '7@7')
    bad_book(hdr(1024, 32) + cl(32, 0, 1025) + E, '7@7')
    bad_form([1024, 32, 33, 0], '7@2')
    bad_form([1024, 32, 32, 1025, 0], '7@3')
    bad_form([1024, 32, 32, -1025, 0], '7@3')
    # bodies that rise in one byte and fall in the other
    good(1024, 0, [(0, [1, 256, 258, 513], 0)])
    good(1024, 0, [(0, [255, 256], 0), (0, [511, 512], 0)])
    bad_book(hdr(1024, 0) + cl(0, 0, 256, 1) + E, '8@7')
    bad_book(hdr(1024, 0) + cl(0, 0, 512, 511) + E, '8@7')
    bad_form([1024, 0, 0, -256, -1, 0], '8@4')
    # case 8 and case 11 as books
    good(3, 4, X[2][:-1])
    good(2, 2, [(1, [], 1), (1, [], 2), (2, [1, 2], 0)])


def section_g():
    # i32 edges, and numbers that are small again in 16 or 8 bits, at every kind of position
    for e in (MIN, MAX, -1, 0, 1, MIN + 1, -MAX + 1, MAX - 1, -65535, -65536, -65537, 65535, 65536, 65537, 65538,
              -32767, -32768, 32768, 255, 256, 257, -255, -256, -257, 2, 3, 4, -2, -3, -4):
        small = 0 <= e <= 2
        write([e], 30, '12@1' if 1 <= e <= 1024 else '7@0')                       # variables, alone
        write([e, 0], 30, 10 if 1 <= e <= 1024 else '7@0')                        # variables
        write([3, e], 30, 10 if 0 <= e <= 32 else '7@1')                          # groups
        write([3, 2, e, 0], 30, 17 if small else '7@2')                           # group, first clause
        write([3, 2, e], 30, '12@3' if small else '7@2')                          # group, where the form ends
        write([3, 2, 1, -1, 2, 0, e, 0], 30, 26 if small else '7@6')              # group, later clause
        write([3, 2, 1, e, 0], 30, '12@5' if e == 0 else None)                    # literal, first (0 ends it: then a group)
        write([3, 2, 1, e], 30, 17 if e == 0 else None)                           # literal, where the form ends
        write([3, 2, 1, -1, e, 0], 30)                                            # literal after a body literal
        write([3, 2, 1, 2, e, 0], 30)                                             # literal after the head
        write([3, 2, 1, 0, 2, -2, 3, e, 0], 30)                                   # literal in a later clause
    # by hand, from the list above
    write([3, 2, 1, MIN, 0], 30, '7@3')
    write([3, 2, 1, MAX, 0], 30, '7@3')
    write([3, 2, 1, 2, MIN, 0], 30, '7@4')
    write([3, 2, 1, -1, MIN], 30, '7@4')
    write([3, 2, 1, 2, -1, 0], 30, '8@4')
    write([3, 2, 1, -1, -1, 0], 30, '8@4')
    write([3, 2, 1, -1, 0, 0], 30, '12@6')
    write([3, 2, 1, -1, 0, 0, 0], 30, 26)
    write([3, 2, 1, 2, 1, 0], 30, '13@4')
    write([1024, 32, 1, -1025, 0], 30, '7@3')
    write([1024, 32, 32, -1024, 1024, 0], 30, 19)


# ---------------------------------------------------------------- h: random small cases

def random_content(rng):
    kind = rng.randrange(20)
    if kind == 0:                                                   # now and then bodies at the limit
        v, sizes = rng.choice((33, 40, 1024)), (31, 32, 32, 32)
        count = 1
    else:
        v, sizes = rng.choice((1, 2, 3, 3, 4, 5, 9, 300, 1024)), (0, 1, 1, 2, 2, 3)
        count = rng.choice((0, 1, 1, 1, 1, 2, 2, 3))
    g = rng.choice((0, 1, 2, 2, 3, 5, 32))
    clauses = []
    for _ in range(count):
        size = min(v, rng.choice(sizes))
        body = sorted(rng.sample(range(1, v + 1), size))
        clauses.append((rng.randrange(g + 1), body, rng.choice((0, rng.randrange(1, v + 1)))))
    return v, g, clauses


def field_starts(b):
    """Where fields start, as far as they can be followed."""
    at, starts = 0, []
    while at + 3 <= len(b):
        starts.append(at)
        at += 3 + b[at + 1] * 256 + b[at + 2]
    return starts + [min(at, len(b))]


def damaged_book(rng, b):
    """One edit."""
    b = bytearray(b)
    kind = rng.randrange(14)
    starts = field_starts(b)
    k = rng.randrange(len(b) + 1)
    if kind == 0 and k < len(b):                                    # a byte changed at will
        b[k] = rng.randrange(256)
    elif kind in (1, 2) and k < len(b):                             # a byte changed a little
        b[k] = (b[k] + rng.choice((-2, -1, 1, 2))) % 256
    elif kind == 3:                                                 # a byte inserted
        b.insert(k, rng.choice((0, 1, 2, 3, rng.randrange(256))))
    elif kind == 4 and k < len(b):                                  # a byte removed
        del b[k]
    elif kind == 5:                                                 # cut anywhere
        del b[k:]
    elif kind == 6:                                                 # cut at a field
        del b[rng.choice(starts):]
    elif kind == 7:                                                 # bytes appended
        b += bytes(rng.choice((0, 1, 2, 255)) for _ in range(rng.randrange(1, 5)))
    elif kind == 8:                                                 # a field put in
        k = rng.choice(starts)
        b[k:k] = rng.choice((H, E, cl(0, 0), cl(1, 1, 2, 1), cl(0, 1, 0), fld(3, b''), fld(2, bytes(2)), fld(0, b'\x00'),
                             fld(2, bytes(5)), cl(0, 0, 1), cl(40, 1)))
    elif kind == 9 and len(starts) > 2:                             # a field taken out
        i = rng.randrange(len(starts) - 1)
        del b[starts[i]:starts[i + 1]]
    elif kind == 10:                                                # a tag changed
        k = rng.choice(starts)
        if k < len(b):
            b[k] = rng.choice((0, 1, 2, 3, 4, 255))
    else:                                                           # two neighbouring numbers of a clause swapped
        spots = [k for at, end in zip(starts, starts[1:]) if b[at] == 2 for k in range(at + 3, end - 3, 2)]
        if spots:
            k = rng.choice(spots)
            b[k:k + 4] = b[k + 2:k + 4] + b[k:k + 2]
    return bytes(b)


def damaged_form(rng, p):
    """One edit."""
    p = list(p)
    kind = rng.randrange(13) if len(p) < 33 or rng.randrange(3) == 0 else 12
    k = rng.randrange(len(p) + 1)
    some = rng.choice((0, 0, 0, 1, 1, -1, -1, 2, 2, -2, -2, 3, -3, 4, -4, 33, -1025, MIN, MAX, 65537))
    if kind in (0, 1) and k < len(p):                               # a number changed at will
        p[k] = some
    elif kind in (2, 3) and k < len(p):                             # a number changed a little
        p[k] += rng.choice((-2, -1, 1, 2)) if abs(p[k]) < 2 ** 30 else 0
    elif kind == 4 and k < len(p):                                  # a number's sign changed
        p[k] = -p[k] if p[k] != MIN else MAX
    elif kind == 5:                                                 # a number inserted
        p.insert(k, some)
    elif kind == 6 and k < len(p):                                  # a number removed
        del p[k]
    elif kind == 7:                                                 # cut
        del p[k:]
    elif kind == 8:                                                 # numbers appended
        p += [rng.choice((0, 0, 1, 2, -1, -2)) for _ in range(rng.randrange(1, 4))]
    elif kind == 9 and k + 1 < len(p):                              # neighbours swapped
        p[k], p[k + 1] = p[k + 1], p[k]
    elif kind == 10 and k < len(p):                                 # a number doubled
        p.insert(k, p[k])
    else:                                                           # one more body literal behind the last of a body
        spots = [k for k in range(3, len(p)) if p[k - 1] < 0 <= p[k]]
        if spots:
            k = rng.choice(spots)
            p.insert(k, max(MIN, p[k - 1] - rng.choice((0, 1, 1, 1, 2))))
    return p


def random_fields(rng):
    """Random bytes with plausible tags and lengths."""
    b = b'' if rng.randrange(8) == 0 else fld(1, n2(rng.choice((0, 1, 3, 3, 5, 5, 1024, 1025))) +
                                              n2(rng.choice((0, 1, 2, 2, 3, 32, 33))))
    for _ in range(rng.randrange(4)):
        tag = rng.choice((2, 2, 2, 2, 2, 2, 2, 2, 0, 1, 3, rng.randrange(256)))
        size = rng.choice((4, 4, 6, 6, 8, 8, 10, 0, 2, 3, 5, 7)) if tag == 2 else rng.choice((0, 0, 4, 1, 2))
        value = bytes((rng.randrange(5) if k % 2 else rng.choice((0,) * 60 + (1,))) for k in range(size))
        b += fld(tag, value)
    b += rng.choice((E, E, E, E, b'', E + b'\x00', bytes(rng.randrange(4))))
    return b


def random_numbers(rng):
    """Random numbers in the range of a small plain form."""
    p = [rng.choice((0, 1, 3, 3, 5, 5, 5, 1024, 1025)), rng.choice((0, 1, 2, 2, 3, 3, 32, 33, -1))]
    for _ in range(rng.randrange(10)):
        p.append(rng.choice((0, 0, 0, 1, 1, 2, 3, -1, -1, -2, -2, -3, -3, 4, -4, 6)))
    return p if rng.randrange(4) else p + [0]


def section_h():
    # 3,000 random small cases: good (a quarter), one edit, several edits, made at random
    rng = random.Random(20240613)
    for k in range(3000):
        call = (1, 2, 3, 2, 3, 3)[k % 6]
        content = random_content(rng)
        data = plain_of(*content) if call == 3 else book_of(*content)
        damage = damaged_form if call == 3 else damaged_book
        style = rng.randrange(8)
        if style in (2, 3, 4):
            data = damage(rng, data)
        elif style in (5, 6):
            for _ in range(rng.randrange(2, 5)):
                data = damage(rng, data)
        elif style == 7:
            data = random_numbers(rng) if call == 3 else random_fields(rng)
        if call == 1:
            check(data)
            continue
        answer = twin.read(bytes(data), [0] * 2000) if call == 2 else twin.write(data, [0] * 8000)
        need = answer[1] if answer[0] == 'count' else len(plain_of(*content) if call == 2 else book_of(*content))
        room = max(0, need + rng.choice((-9, -2, -1, -1, 0, 0, 0, 1, 1, 2, 3, 8)))
        add(call, data, room if rng.randrange(12) else 0)


# ---------------------------------------------------------------- the two files and the table

def store(made, expected):
    """Writes the two files that the usage names."""
    with open(sys.argv[1], 'wb') as out:
        out.write(made)
    with open(sys.argv[2], 'w', newline='\n') as out:
        out.write(''.join(line + '\n' for line in expected))


def table(counts, title):
    print(title)
    keys = ['book', 'count', 1, 2, 3, 4, 5, 6, 7, 8, 9, 11, 12, 13]
    print('%-6s' % '' + ''.join('%7s' % key for key in keys) + '    all')
    for call in CALLS:
        print('%-6s' % CALLS[call] +
              ''.join('%7s' % (counts[call][key] if key in OCCUR[call] else '.') for key in keys) +
              '%7d' % sum(counts[call].values()))


def main():
    for letter, make in (('a', section_a), ('b', section_b), ('c', section_c), ('d', section_d), ('e', section_e),
                         ('f', section_f), ('g', section_g), ('h', section_h)):
        section(letter)
        make()
    section('end')
    store(cases, lines)
    table(tally, 'all cases')
    table(tally_h, 'section h alone (1 and 6 need inputs that are not small)')
    for (letter, n, size), (_, n2_, size2) in zip(sections, sections[1:]):
        print('section %s: %d cases, %d bytes' % (letter, n2_ - n, size2 - size))
    print('%d cases, %d bytes of cases, round trips asserted: %d books, %d plain forms' %
          (len(lines), len(cases), len(inverse[2]), len(inverse[3])))
    failed = False
    for call in CALLS:
        for key in OCCUR[call]:
            if tally[call][key] == 0 or (key not in (1, 6) and tally_h[call][key] == 0):
                print('never met: %s %s' % (CALLS[call], key))
                failed = True
        for key in tally[call]:
            if key not in OCCUR[call]:
                print('cannot occur: %s %s' % (CALLS[call], key))
                failed = True
    sys.exit(1 if failed else 0)


if __name__ == '__main__':
    main()
