"""usage: make_ask_cases.py CASES EXPECTED -- test cases for ask, answered by twin.py.

A case: 1 byte 4 (0 would be the end); 4 bytes (high byte first, as all numbers) how many bytes the book has; 4 bytes the choice; 2 bytes how many
bytes the space of answers has; 2 bytes how many words the working space has; the book as runs (see `runs` of make_cases.py).
Before the call the space of answers is filled as in make_cases.py, and word k of the working space is (k * 7919 + 65534) % 65535 + 1.
Its line: the answer, a checksum of the whole space of answers after the call, and one of the whole working space.

Where a case is given a wanted answer ('N@P' a refusal, 'ok' consistent, a number the broken goal clause) and the wanted forced variables, these
are those that document 01 gives, and twin.py must agree with them. For books of few variables every answer is also held to the meanings,
over all assignments (see `assert_meaning`).
"""
import functools
import random
import sys
from collections import Counter

import twin
from make_cases import E, H, X, XB, book_of, checksum, cl, damaged_book, fill, fld, hdr, hexb, long_book, random_fields, runs, store

OCCUR = ['consistent', 'contradiction', 1, 2, 3, 4, 5, 6, 7, 8, 9, 10, 11]
WORDS, ALL = 8192, 2 ** 32 - 1
MOST_ROOM, MOST_WORDS = 1100, 8300      # the spaces of the program ask_cases

cases = bytearray()
lines = []
sections = []                           # (letter, number of cases before it, bytes before it)
tally = Counter()
held = Counter()                        # answers held to the meanings


# ---------------------------------------------------------------- running one case

def fill_words(words):
    return [(k * 7919 + 65534) % 65535 + 1 for k in range(words)]


@functools.lru_cache(None)
def checksum_of(space):
    return checksum(space)


def assert_meaning(variables, clauses, choice, answer, forced):
    """Over all assignments: consistent if one of them satisfies all clauses in force; forced is what is true in all that satisfy those with a head."""
    masks = [(sum(1 << v for v in body), 1 << head if head else 0) for group, body, head in clauses
             if group == 0 or choice >> group - 1 & 1]

    def satisfies(true, some):
        return all(body & ~true or head & true for body, head in some)

    with_head = [true for true in range(0, 2 << variables, 2) if satisfies(true, [m for m in masks if m[1]])]
    assert (answer[0] == 'consistent') == any(satisfies(true, masks) for true in with_head)
    always = functools.reduce(int.__and__, with_head)
    assert forced == [v for v in range(1, variables + 1) if always >> v & 1]
    held[answer[0]] += 1


def assert_spaces(book, choice, answer, out, work):
    """What the answer says about both spaces; gives the forced variables."""
    room, words = len(out), len(work)
    if answer[0] == 'refused':
        assert out == fill(room) and work == fill_words(words)
        return None
    variables, _, clauses = twin.walk(book)
    assert out[variables:] == fill(room)[variables:] and set(out[:variables]) <= {0, 1}
    assert work == [0] * WORDS + fill_words(words)[WORDS:]
    forced = [v for v in range(1, variables + 1) if out[v - 1] == 1]
    if variables <= 10:
        assert_meaning(variables, clauses, choice, answer, forced)
    return forced


def ask(book, choice, want=None, forced=None, room=5, words=WORDS):
    assert len(book) <= 65600 and room <= MOST_ROOM and words <= MOST_WORDS
    out, work = fill(room), fill_words(words)
    answer = twin.ask(bytes(book), choice, out, work)
    alone = twin.check(bytes(book))
    assert (alone == answer) if alone[0] == 'refused' else (answer[0] != 'refused' or answer[1] in (10, 11))
    got = '%d@%d' % answer[1:] if answer[0] == 'refused' else str(answer[1]) if answer[0] == 'contradiction' else 'ok'
    got_forced = assert_spaces(bytes(book), choice, answer, out, work)
    assert want is None or str(want) == got, (book[:80], choice, room, words, want, got)
    assert forced is None or list(forced) == got_forced, (book[:80], choice, forced, got_forced)
    tally[answer[1] if answer[0] == 'refused' else answer[0]] += 1
    cases.extend(bytes([4]) + len(book).to_bytes(4, 'big') + choice.to_bytes(4, 'big') + room.to_bytes(2, 'big') + words.to_bytes(2, 'big'))
    cases.extend(runs(bytes(book), 1))
    lines.append(' '.join(str(a) for a in answer + (checksum_of(tuple(out)), checksum_of(tuple(work)))))


def section(letter):
    sections.append((letter, len(lines), len(cases)))


def choice_of(*groups):
    return sum(2 ** (g - 1) for g in groups)


# ---------------------------------------------------------------- a, b: Book X and the other checks of document 01

def section_a():
    # cases 5, 6, 7
    ask(XB, 26, 'ok', [])
    ask(XB, 21, 'ok', [1, 2])
    ask(XB, 31, 1, [1, 2, 3])
    # case 13: X, choice 32
    ask(XB, 32, '10@6')
    # each choice of X, by its clauses: 1 by group 1; 2 by group 3, or by 5 from 1; 3 by group 2 from 1, or by 4 from 2; 3 is forbidden
    for choice in range(32):
        g1, g2, g3, g4, g5 = (choice >> k & 1 for k in range(5))
        one, two = g1, g3 or g5 and g1
        three = g2 and one or g4 and two
        ask(XB, choice, 1 if three else 'ok', [v for v, true in ((1, one), (2, two), (3, three)) if true])
    # case 8: X without group 5
    smaller = book_of(3, 4, X[2][:-1])
    for choice, want, forced in ((0, 'ok', []), (1, 'ok', [1]), (3, 1, [1, 3]), (4, 'ok', [2]), (12, 1, [2, 3]), (9, 'ok', [1]), (10, 'ok', []),
                                 (5, 'ok', [1, 2]), (15, 1, [1, 2, 3]), (16, '10@5', None)):
        ask(smaller, choice, want, forced)


def section_b():
    # case 9, case 10
    ask(book_of(1, 0, []), 0, 'ok', [])
    ask(book_of(1, 0, [(0, [], 0)]), 0, 1, [])
    # case 11
    eleven = book_of(2, 2, [(1, [], 1), (1, [], 2), (2, [1, 2], 0)])
    for choice, want, forced in ((0, 'ok', []), (1, 'ok', [1, 2]), (2, 'ok', []), (3, 3, [1, 2]), (4, '10@3', None)):
        ask(eleven, choice, want, forced)
    # case 13, its books
    ask(b'', 0, '2@0')
    ask(hexb('000000'), 0, '4@0')
    ask(hexb('01000400010000'), 0, '2@7')
    # case 14
    ask(hdr(1, 32) + E, 0, 'ok', [])
    ask(hdr(1, 33) + E, 0, '7@0')
    ask(hdr(1024, 0) + E, 0, 'ok', [], room=1024)
    ask(hdr(1025, 0) + E, 0, '7@0', room=1100)
    ask(hdr(40, 0) + cl(0, 1, *range(2, 34)) + E, 0, 'ok', [], room=40)
    ask(hdr(40, 0) + cl(0, 1, *range(2, 35)) + E, 0, '5@7', room=40)


# ---------------------------------------------------------------- c: spaces

def section_c():
    # the space of answers: none, one byte too small, exact, larger
    for room, want in ((0, '11@0'), (2, '11@0'), (3, 1), (4, 1), (300, 1)):
        ask(XB, 31, want, room=room)
    for room, want in ((0, '11@0'), (1, 'ok'), (2, 'ok')):
        ask(hdr(1, 0) + E, 0, want, room=room)
    for room, want in ((255, '11@0'), (256, '11@0'), (1023, '11@0'), (1024, 'ok'), (1025, 'ok'), (1100, 'ok')):
        ask(hdr(1024, 1) + cl(1, 1024) + E, 1, want, [1024] if want == 'ok' else None, room=room)
    # working space: 8,191 words are too few; of 8,200 the last 8 stay
    for words, want in ((0, '11@0'), (1, '11@0'), (4096, '11@0'), (8191, '11@0'), (8192, 1), (8193, 1), (8200, 1), (8300, 1)):
        ask(XB, 31, want, words=words)
        ask(XB, 0, 'ok' if want == 1 else want, words=words)
        ask(hdr(1024, 32) + E, ALL, 'ok' if want == 1 else want, room=1024, words=words)
    # both too small
    ask(XB, 31, '11@0', room=2, words=8191)
    ask(XB, 31, '11@0', room=0, words=0)


# ---------------------------------------------------------------- d: choices

def section_d():
    # the lowest group that the book lacks
    for choice, want in ((32, '10@6'), (64, '10@7'), (96, '10@6'), (63, '10@6'), (2 ** 31, '10@32'), (2 ** 31 + 31, '10@32'), (ALL, '10@6'),
                         (ALL - 63, '10@7'), (2 ** 16, '10@17'), (2 ** 8, '10@9')):
        ask(XB, choice, want)
    for groups in (0, 1, 2, 7, 8, 15, 16, 30, 31):
        book = book_of(1, groups, [(0, [], 1)])
        ask(book, ALL, '10@%d' % (groups + 1))
        ask(book, 2 ** groups, '10@%d' % (groups + 1))
        ask(book, 2 ** 31, '10@32')
        ask(book, 2 ** groups - 1, 'ok', [1])
    # 32 groups, each with a fact and a goal that needs all facts
    wide = book_of(32, 32, [(0, list(range(1, 33)), 0)] + [(g, [], g) for g in range(1, 33)])
    ask(wide, ALL, 1, range(1, 33), room=32)
    ask(wide, 0, 'ok', [], room=32)
    for g in (1, 2, 7, 8, 9, 15, 16, 17, 18, 24, 25, 31, 32):
        ask(wide, ALL - choice_of(g), 'ok', [v for v in range(1, 33) if v != g], room=33)
        ask(wide, choice_of(g), 'ok', [g], room=32)
    # a group named by the choice that has no clause
    bare = book_of(2, 3, [(1, [], 1), (3, [1], 2)])
    ask(bare, choice_of(2), 'ok', [])
    ask(bare, choice_of(1, 2), 'ok', [1])
    ask(bare, choice_of(1, 2, 3), 'ok', [1, 2])
    ask(bare, choice_of(2, 3), 'ok', [])
    ask(book_of(3, 5, []), 31, 'ok', [])


# ---------------------------------------------------------------- e: refusals that meet in one input

def bad_books():
    """Each refusal of a book, some by two books."""
    full = hdr(2, 1) + cl(0, 0) * 2048
    return [('1@0', bytes(65536)), ('2@0', b''), ('2@7', H + hexb('020006 0000')), ('3@7', H + fld(3, b'') + E), ('4@0', E), ('4@7', H + H + E),
            ('5@7', H + fld(2, bytes(5)) + E), ('5@7', H + fld(0, bytes(1))), ('6@%d' % len(full), full + cl(0, 0) + E),
            ('7@0', hdr(1, 33) + E), ('7@7', H + cl(3, 0) + E), ('7@7', H + cl(0, 0, 4) + E), ('8@7', H + cl(0, 0, 2, 1) + E),
            ('9@10', H + E + bytes(1)), ('9@60', XB + E)]


def section_e():
    small = ((2, WORDS), (0, WORDS), (5, WORDS - 1), (5, 0), (0, 0))
    # a refusal of the book alone, with 10, with 11, with both
    for want, book in bad_books():
        for choice in (0, 1, ALL):
            ask(book, choice, want)
        for room, words in small:
            ask(book, 0, want, room=room, words=words)
            ask(book, ALL, want, room=room, words=words)
    # 10 with 11
    for room, words in small:
        ask(XB, 32, '10@6', room=room, words=words)
        ask(XB, 2 ** 31 + 1, '10@32', room=room, words=words)
        ask(hdr(3, 0) + E, 1, '10@1', room=room, words=words)
        ask(XB, 31, '11@0', room=room, words=words)
    # nothing but 11 where the choice would give a contradiction, or the core is broken
    ask(book_of(3, 1, [(0, [], 0), (1, [], 0)]), 1, '11@0', room=2)
    ask(book_of(3, 1, [(0, [], 0), (1, [], 0)]), 1, '11@0', words=8191)
    # 10 where the core is broken
    ask(book_of(3, 1, [(0, [], 0)]), 2, '10@2')


# ---------------------------------------------------------------- f: shapes of books

def section_f():
    # a broken goal before clauses that still force variables
    past = [(0, [], 1), (0, [1], 0), (0, [1], 2), (0, [2], 3), (0, [1, 3], 0)]
    ask(book_of(3, 0, past), 0, 2, [1, 2, 3])
    ask(book_of(4, 0, [(0, [], 0)] + past + [(0, [3], 4)]), 0, 1, [1, 2, 3, 4])
    ask(book_of(4, 2, [(2, [], 0), (1, [], 4), (1, [4], 3), (1, [3], 2), (1, [2], 1)]), 3, 1, [1, 2, 3, 4])
    # a head in its own body forces nothing by itself
    own = book_of(3, 2, [(0, [1], 1), (1, [], 1), (0, [1, 2], 2), (2, [], 2), (0, [1, 2, 3], 3), (0, [2], 0)])
    ask(own, 0, 'ok', [])
    ask(own, 1, 'ok', [1])
    ask(own, 2, 6, [2])
    ask(own, 3, 6, [1, 2])
    # a circle forces nothing until one of it is forced
    circle = book_of(4, 1, [(0, [1], 2), (0, [2], 3), (0, [3], 1), (1, [4], 3), (1, [], 4), (0, [1, 2, 3, 4], 0)])
    ask(circle, 0, 'ok', [])
    ask(circle, 1, 6, [1, 2, 3, 4])
    # a goal with an empty body in group 0 and in another group
    ask(book_of(2, 1, [(1, [], 2), (0, [], 0)]), 0, 2, [])
    ask(book_of(2, 1, [(1, [], 2), (0, [], 0)]), 1, 2, [2])
    ask(book_of(2, 2, [(1, [], 2), (2, [], 0)]), 1, 'ok', [2])
    ask(book_of(2, 2, [(1, [], 2), (2, [], 0)]), 2, 2, [])
    ask(book_of(2, 2, [(1, [], 2), (2, [], 0)]), 3, 2, [2])
    # the lowest number of a broken goal, whatever the groups; earlier goals that are not broken, or not in force
    goals = book_of(3, 3, [(0, [], 1), (2, [1], 0), (0, [2], 0), (1, [1], 0), (0, [1, 3], 0), (3, [], 3)])
    for choice, want, forced in ((0, 'ok', [1]), (1, 4, [1]), (2, 2, [1]), (3, 2, [1]), (4, 5, [1, 3]), (5, 4, [1, 3]), (6, 2, [1, 3]), (7, 2, [1, 3])):
        ask(goals, choice, want, forced)
    # equal clauses
    ask(book_of(3, 2, [(1, [], 1)] * 3 + [(2, [1], 0)] * 3), 3, 4, [1])
    ask(book_of(3, 2, [(1, [1], 2), (2, [1], 2), (1, [], 1), (2, [], 1), (0, [2], 0), (0, [2], 0)]), 2, 5, [1, 2])
    ask(book_of(3, 1, [(0, [], 0)] * 4), 1, 1, [])
    # one variable short of a body, for each place in it
    for missing in range(1, 5):
        facts = [(0, [], v) for v in range(1, 5) if v != missing]
        ask(book_of(5, 0, [(0, [1, 2, 3, 4], 5), (0, [1, 2, 3, 4], 0)] + facts), 0, 'ok', [v for v in range(1, 5) if v != missing])
    ask(book_of(5, 0, [(0, [1, 2, 3, 4], 5), (0, [1, 2, 3, 4], 0)] + [(0, [], v) for v in (4, 3, 2, 1)]), 0, 2, [1, 2, 3, 4, 5])
    # bodies of 32, whole and one short; variables whose numbers need both bytes
    facts = [(0, [], v) for v in range(1, 33)]
    ask(book_of(300, 1, [(0, list(range(1, 33)), 257), (1, [257], 0)] + facts), 1, 2, list(range(1, 33)) + [257], room=300)
    ask(book_of(300, 1, [(0, list(range(1, 33)), 257), (1, [257], 0)] + facts[:-1]), 1, 'ok', range(1, 32), room=300)
    ask(book_of(1024, 0, [(0, [], 257), (0, [1], 2), (0, [257, 513], 0), (0, [257], 1024)]), 0, 'ok', [257, 1024], room=1024)
    ask(book_of(1024, 0, [(0, [], 1024), (0, [1024], 256), (0, [256, 1024], 512), (0, [512], 0)]), 0, 4, [256, 512, 1024], room=1030)
    # clause numbers that need both bytes
    for before in (254, 255, 256, 257, 511, 1000):
        ask(book_of(2, 1, [(0, [2], 0)] * before + [(1, [], 0), (1, [], 0)]), 1, before + 1, [])


# ---------------------------------------------------------------- g: large books

def chain(order, backwards):
    """A goal, then a clause for each variable from its neighbour in `order`, stated in that order or backwards; one in the middle is in group 1."""
    clauses = [(0, [], order[0])] + [(1 if k == 512 else 0, [v], w) for k, (v, w) in enumerate(zip(order, order[1:]))]
    return book_of(1024, 1, [(0, [order[-1]], 0)] + (clauses[::-1] if backwards else clauses))


def section_g():
    # 1,024 variables as a rising and as a falling chain, the clauses in its order and against it; broken in the middle without group 1
    rising, falling = list(range(1, 1025)), list(range(1024, 0, -1))
    for order in (rising, falling):
        for backwards in (False, True):
            ask(chain(order, backwards), 1, 1, rising, room=1024)
    ask(chain(rising, True), 0, 'ok', range(1, 514), room=1024)
    ask(chain(falling, False), 0, 'ok', range(512, 1025), room=1024)
    # 2,048 clauses: the last is broken; all are; none is
    ask(book_of(2, 1, [(0, [], 2)] * 2047 + [(1, [2], 0)]), 1, 2048, [2])
    ask(book_of(2, 1, [(1, [], 0)] * 2048), 1, 1, [])
    ask(book_of(2, 1, [(1, [], 0)] * 2048), 0, 'ok', [])
    ask(book_of(2, 1, [(1, [2], 0)] * 1024 + [(0, [1], 2)] * 1023 + [(0, [], 1)]), 1, 1, [1, 2])
    ask(book_of(2, 1, [(1, [2], 0)] * 1024 + [(0, [1], 2)] * 1023 + [(0, [], 1)]), 0, 'ok', [1, 2])
    # the largest book: 65,535 bytes, its bodies whole only by the facts at its end, stated against their order
    body, facts = list(range(1, 33)), [(0, [], v) for v in range(32, 0, -1)]
    largest = book_of(1024, 32, [(0, body, 1024)] * 798 + [(32, body, 0), (7, body[:30], 1023)] + facts + [(0, [], 5)] * 1215)
    assert len(largest) == 65535
    ask(largest, ALL, 799, body + [1023, 1024], room=1024)
    ask(largest, 0, 'ok', body + [1024], room=1024)
    ask(largest, choice_of(7), 'ok', body + [1023, 1024], room=1100, words=8200)
    ask(largest, choice_of(32), '11@0', room=1023)
    ask(book_of(*long_book(65535, 2047, 1)), ALL, room=1024)
    ask(book_of(*long_book(65535, 2047, 1)), 0x55555555, room=1024)
    # one byte more, good but for that
    ask(book_of(*long_book(65536, 2048, 2)), 0, '1@0', room=1024)


# ---------------------------------------------------------------- h: random small cases

def random_clause(rng, v, g, sizes):
    group = rng.choice((0, rng.randrange(g + 1), rng.randrange(g + 1)))
    kind = rng.randrange(9)
    if kind < 3:                                                    # a fact
        return group, [], rng.randrange(1, v + 1)
    body = sorted(rng.sample(range(1, v + 1), min(v, rng.choice(sizes))))
    return group, body, 0 if kind < 6 else rng.randrange(1, v + 1)


def random_book(rng):
    """Facts, goals and clauses between few variables, so that they meet; now and then long bodies over facts."""
    g = rng.choice((0, 1, 2, 2, 3, 3, 4, 5))
    if rng.randrange(100) == 0:
        v = rng.choice((32, 33, 36))
        facts = [(rng.choice((0, 0, rng.randrange(g + 1))), [], u) for u in range(1, v + 1) if rng.randrange(12)]
        clauses = [random_clause(rng, v, g, (1, 8, 31, 32)) for _ in range(3)] + facts
        rng.shuffle(clauses)
        return v, g, clauses
    v = rng.choice((1, 2, 3, 3, 4, 4, 5, 6, 8, 10))
    return v, g, [random_clause(rng, v, g, (1, 1, 1, 2, 2, 3, v - 1, v)) for _ in range(rng.randrange(2, 10))]


def random_case(rng):
    v, g, clauses = random_book(rng)
    book = book_of(v, g, clauses)
    style = rng.randrange(16)
    if style < 3:
        for _ in range(rng.choice((1, 1, 2, 3))):
            book = damaged_book(rng, book)
    elif style == 3:
        book = random_fields(rng)
    choice = rng.randrange(2 ** g) if rng.randrange(3) else 2 ** g - 1
    if rng.randrange(16) == 0:
        choice |= rng.choice((2 ** g, 2 ** 31, rng.randrange(2 ** 32))) % 2 ** 32
    room = v + rng.choice((0, 0, 0, 1, 2, 7)) if rng.randrange(24) else rng.randrange(v)
    words = rng.choice((8192, 8192, 8192, 8193, 8200, 8300)) if rng.randrange(24) else rng.choice((0, 1, 8191))
    ask(book, choice, room=room, words=words)


def section_h():
    rng = random.Random(20240701)
    for _ in range(3000):
        random_case(rng)


# ---------------------------------------------------------------- the two files and the counts

def main():
    for letter, make in (('a', section_a), ('b', section_b), ('c', section_c), ('d', section_d), ('e', section_e),
                         ('f', section_f), ('g', section_g), ('h', section_h)):
        section(letter)
        make()
    section('end')
    store(cases, lines)
    for (letter, n, size), (_, n2, size2) in zip(sections, sections[1:]):
        print('section %s: %d cases, %d bytes' % (letter, n2 - n, size2 - size))
    print('%d cases, %d bytes of cases' % (len(lines), len(cases)))
    print(', '.join('%s: %d' % (key, tally[key]) for key in OCCUR))
    print('held to the meanings over all assignments: %d consistent, %d contradictions' % (held['consistent'], held['contradiction']))
    for key in OCCUR:
        if tally[key] == 0:
            sys.exit('never met: %s' % key)
    for key in tally:
        if key not in OCCUR:
            sys.exit('cannot occur: %s' % key)


if __name__ == '__main__':
    main()
