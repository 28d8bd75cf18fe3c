"""usage: make_list_cases.py CASES EXPECTED -- test cases for explain, round and list, answered by twin.py.

A case: 1 byte call (5 explain, 6 round, 7 list; 0 would be the end); 4 bytes (high byte first, as all numbers) how many bytes the book has; 2 bytes
how many words the working space has. Then for explain: 4 bytes the choice. For round and list: 8 bytes how many records are there, 2 bytes how
many words the space of records has, 2 bytes how many of these are given, and the given words, 4 bytes each. Last the book as runs (see `runs` of
make_cases.py).
Before the call word k of the working space, and word k of the space of records from the given words on, is (k * 7919 + 65534) % 65535 + 1.
Its line: the answer, for round and list a checksum of the whole space of records after the call, and one of the whole working space.

Where a case is given a wanted answer ('N@P' a refusal, 'ok' consistent, a number the explanation, 'complete N' or 'stopped N') and the wanted
records, these are those that document 01 or docs/DECISIONS.md gives, and twin.py must agree with them. For books of few variables and groups every
choice is also held to the meanings, over all assignments (see `assert_meaning`); check_twin.py holds the listings to them.
"""
import functools
import random
import sys
from collections import Counter

import twin
from make_ask_cases import bad_books
from make_cases import E, X, XB, book_of, checksum, damaged_book, hdr, hexb, long_book, random_fields, runs, store

EXPLAIN, ROUND, LIST = 5, 6, 7
CALLS = {EXPLAIN: 'explain', ROUND: 'round', LIST: 'list'}
OCCUR = {EXPLAIN: ['consistent', 'explanation', 1, 2, 3, 4, 5, 6, 7, 8, 9, 10, 11],
         ROUND: ['complete', 'stopped', 1, 2, 3, 4, 5, 6, 7, 8, 9, 11, 14],
         LIST: ['complete', 'stopped', 1, 2, 3, 4, 5, 6, 7, 8, 9, 11, 14]}
WORDS, ALL = 8192, 2 ** 32 - 1
MOST_WORDS, MOST_ROOM = 8300, 1100      # the spaces of the program list_cases
BOOKS, SEED = 1400, 20240916            # random books

cases = bytearray()
lines = []
sections = []                           # (letter, number of cases before it, bytes before it)
tally = {call: Counter() for call in CALLS}
held = Counter()                        # choices held to the meanings


# ---------------------------------------------------------------- running one case

@functools.lru_cache(None)
def fill(words):
    return [(k * 7919 + 65534) % 65535 + 1 for k in range(words)]


@functools.lru_cache(None)
def checksum_of(space):
    return checksum(space)


@functools.lru_cache(256)
def assert_meaning(book):
    """Over all assignments: a choice is consistent if one of them satisfies all clauses in force."""
    variables, groups, clauses = twin.walk(book)
    if variables > 6 or groups > 10:
        return
    # as a number: which assignments satisfy the clause
    good = [sum(1 << k for k, true in enumerate(range(0, 2 << variables, 2))
                if any(not true >> v & 1 for v in body) or head != 0 and true >> head & 1) for _, body, head in clauses]
    for choice in range(2 ** groups):
        some = functools.reduce(int.__and__, (g for g, (group, _, _) in zip(good, clauses) if group == 0 or choice >> group - 1 & 1), -1)
        assert twin.rules_of(book).consistent(choice) == (some != 0)
        held['consistent' if some != 0 else 'inconsistent'] += 1


def head_of(call, book, words):
    assert len(book) <= 65600 and words <= MOST_WORDS
    return bytes([call]) + len(book).to_bytes(4, 'big') + words.to_bytes(2, 'big')


def wanted(answer):
    return {'refused': '%d@%d', 'consistent': 'ok', 'explanation': '%d', 'complete': 'complete %d', 'stopped': 'stopped %d'}[answer[0]] % answer[1:]


def assert_answer(call, book, answer, want, work, own):
    """A refused book gives its refusal, another only the call's own; the working space is what the answer says about it."""
    alone = twin.check(bytes(book))
    assert (alone == answer) if alone[0] == 'refused' else (answer[0] != 'refused' or answer[1] in own)
    if answer[0] == 'refused':
        assert work == fill(len(work))
    else:
        assert work == [0] * WORDS + fill(len(work))[WORDS:]
        assert_meaning(bytes(book))
    assert want is None or str(want) == wanted(answer), (CALLS[call], book[:80], want, answer)
    tally[call][answer[1] if answer[0] == 'refused' else answer[0]] += 1


def explain(book, choice, want=None, words=WORDS, known=None):
    """known: the answer, where twin.py cannot try all choices."""
    work = list(fill(words))
    if known is None:
        answer = twin.explain(bytes(book), choice, work)
    else:
        answer, work[:WORDS] = known, [0] * WORDS
    assert_answer(EXPLAIN, book, answer, want, work, (10, 11))
    cases.extend(head_of(EXPLAIN, book, words) + choice.to_bytes(4, 'big') + runs(bytes(book), 1))
    lines.append(' '.join(str(a) for a in answer + (checksum_of(tuple(work)),)))


def run(call, book, given=(), count=None, room=None, want=None, records=None, words=WORDS, known=None):
    """given: the words of the records that are there (count of them, if that is not said), and more if wanted. room: words. records: those wanted
    after the call. known: the answer and these records, where twin.py cannot try all choices. Gives the answer and the records after the call."""
    given = list(given)
    count = len(given) // 2 if count is None else count
    room = len(given) if room is None else room
    given = given[:room]
    assert room <= MOST_ROOM and count < 2 ** 64
    work, space = list(fill(words)), given + fill(room)[len(given):]
    before = list(space)
    if known is None:
        answer = (twin.round_ if call == ROUND else twin.list_)(bytes(book), space, count, work)
    else:
        answer, work[:WORDS], space[:2 * known[0][1]] = known[0], [0] * WORDS, flat(known[1])
    assert_answer(call, book, answer, want, work, (11, 14))
    if answer[0] == 'refused':
        assert space == before
        after = None
    else:
        new = answer[1] - count
        assert 0 <= new <= (1 if call == ROUND else room) and answer[1] <= room // 2
        assert space[:2 * count] == before[:2 * count] and space[2 * answer[1]:] == before[2 * answer[1]:]
        assert answer[0] == 'complete' or new == 1 and call == ROUND or answer[1] == room // 2
        after = twin.records_of(space, answer[1])
    assert records is None or list(records) == after, (CALLS[call], book[:80], records, after)
    cases.extend(head_of(call, book, words) + count.to_bytes(8, 'big') + room.to_bytes(2, 'big') + len(given).to_bytes(2, 'big'))
    cases.extend(b''.join(word.to_bytes(4, 'big') for word in given) + runs(bytes(book), 1))
    lines.append(' '.join(str(a) for a in answer + (checksum_of(tuple(space)), checksum_of(tuple(work)))))
    return answer, after


def round_(book, given=(), **rest):
    return run(ROUND, book, given, **rest)


def list_(book, given=(), **rest):
    return run(LIST, book, given, **rest)


def both(book, given=(), **rest):
    round_(book, given, **rest)
    list_(book, given, **rest)


def flat(records):
    return [word for record in records for word in record]


def section(letter):
    sections.append((letter, len(lines), len(cases)))


def choice_of(*groups):
    return sum(2 ** (g - 1) for g in groups)


def explained(*groups):
    return 1, choice_of(*groups)


def repaired(*groups):
    return 2, choice_of(*groups)


# ---------------------------------------------------------------- a: Book X and the other checks of document 01

# in the order of the program's text
X_LIST = [explained(1, 2), explained(3, 4), repaired(1, 3), explained(1, 4, 5), repaired(1, 4), repaired(2, 4), repaired(2, 3, 5)]
SMALLER = book_of(3, 4, X[2][:-1])
SMALLER_LIST = [explained(1, 2), explained(3, 4), repaired(1, 3), repaired(2, 3), repaired(1, 4), repaired(2, 4)]
ELEVEN = book_of(2, 2, [(1, [], 1), (1, [], 2), (2, [1, 2], 0)])
ELEVEN_LIST = [explained(1, 2), repaired(1), repaired(2)]


def section_a():
    # cases 2, 3, 4, 5
    for choice, want in ((31, 3), (28, 12), (25, 25), (26, 'ok')):
        explain(XB, choice, want)
    # each choice of X by its three explanations
    for choice in range(32):
        explain(XB, choice, next((e for e in (3, 12, 25) if e & choice == e), 'ok'))
    # case 1, case 8 (its repairs come as 5, 6, 9, 10), cases 9, 10, 11
    list_(XB, room=20, want='complete 7', records=X_LIST)
    list_(SMALLER, room=20, want='complete 6', records=SMALLER_LIST)
    list_(book_of(1, 0, []), room=20, want='complete 1', records=[repaired()])
    list_(book_of(1, 0, [(0, [], 0)]), room=20, want='complete 1', records=[explained()])
    list_(ELEVEN, room=20, want='complete 3', records=ELEVEN_LIST)
    for choice, want in ((0, 'ok'), (1, 'ok'), (2, 'ok'), (3, 3)):
        explain(ELEVEN, choice, want)
    explain(book_of(1, 0, []), 0, 'ok')
    explain(book_of(1, 0, [(0, [], 0)]), 0, 0)
    # case 12
    list_(XB, room=6, want='stopped 3', records=[(1, 3), (1, 12), (2, 5)])
    list_(XB, room=14, want='complete 7', records=X_LIST)
    list_(XB, room=15, want='complete 7', records=X_LIST)
    list_(XB, room=0, want='stopped 0', records=[])
    # case 13
    for call in (round_, list_):
        call(b'', room=4, want='2@0')
        call(hexb('000000'), room=4, want='4@0')
        call(hexb('01000400010000'), room=4, want='2@7')
    explain(b'', 0, '2@0')
    explain(XB, 32, '10@6')
    # the smallest number, not the fewest groups
    explain(book_of(4, 4, [(0, [1, 2, 3], 0), (1, [], 1), (2, [], 2), (3, [], 3), (4, [], 0)]), 15, 7)
    explain(book_of(4, 4, [(0, [1, 2, 3], 0), (1, [], 1), (2, [], 2), (3, [], 3), (4, [], 0)]), 14, 8)


# ---------------------------------------------------------------- b: rooms, and listings continued

def whole(book):
    """The records of a listing that begins empty."""
    space = [0] * MOST_ROOM
    answer = twin.list_(bytes(book), space, 0, [0] * WORDS)
    assert answer[0] == 'complete'
    return twin.records_of(space, answer[1])


def says(records, total):
    return '%s %d' % ('complete' if records == total else 'stopped', records)


def every_room(book):
    """Rooms from none to past the end, a spare odd word among them: what fits of the listing, and complete exactly if all of it does."""
    records = whole(book)
    for room in range(2 * len(records) + 4):
        fits = min(room // 2, len(records))
        list_(book, room=room, want=says(fits, len(records)), records=records[:fits])


def every_cut(book):
    """A listing continued from each of its cuts is the listing, and so it is by rounds; in a full room nothing is written, and complete is said
    exactly at the end."""
    records = whole(book)
    total = len(records)
    for cut in range(total + 1):
        given = flat(records[:cut])
        list_(book, given, room=2 * total + 1, want='complete %d' % total, records=records)
        later = min(cut + 1, total)
        round_(book, given, room=2 * total + 1, want=says(later, total), records=records[:later])
        round_(book, given, room=2 * cut + 3, want=says(later, total), records=records[:later])
        for room in (2 * cut, 2 * cut + 1):
            both(book, given, room=room, want=says(cut, total), records=records[:cut])
        if cut < total:
            list_(book, given, room=2 * cut + 2, want=says(cut + 1, total), records=records[:cut + 1])


def pairs(n):
    """Groups 2k-1 and 2k do not go together."""
    return book_of(n, 2 * n, [clause for k in range(1, n + 1) for clause in ((2 * k - 1, [], k), (2 * k, [k], 0))])


def section_b():
    for book in (XB, SMALLER, ELEVEN, book_of(1, 0, []), book_of(1, 0, [(0, [], 0)]), pairs(3), book_of(3, 6, X[2])):
        every_room(book)
        every_cut(book)
    every_room(pairs(4))
    list_(pairs(5), room=73, want='stopped 36')
    list_(pairs(5), room=74, want='complete 37')
    list_(pairs(5), room=76, want='complete 37')
    list_(XB, room=1100, want='complete 7', records=X_LIST)


# ---------------------------------------------------------------- c: records of another book, repeated ones, the empty set

def section_c():
    # the records of one book before another's listing
    books = (XB, SMALLER, ELEVEN, pairs(2), book_of(2, 5, [(1, [], 1), (3, [1], 2), (5, [2], 0)]), book_of(3, 5, [(0, [], 0)]), book_of(2, 5, []),
             book_of(1, 1, [(1, [], 0)]), book_of(1, 0, []))
    for book in books:
        for other in books:
            records = [(kind, members) for kind, members in whole(other) if members < 2 ** twin.check(bytes(book))[2]]
            for some in (records[::-1], records[:2]):
                both(book, flat(some), room=2 * len(some) + 14)
    # the seed's complement, whether or not it is a repair: without {1,2}, {3,4} and {5}, the largest is {2,4}
    round_(XB, (1, 3, 1, 12, 1, 16), room=8, records=[(1, 3), (1, 12), (1, 16), repaired(1, 3, 5)])
    # all groups one by one: the seed is the empty choice
    round_(XB, (1, 1, 1, 2, 1, 4, 1, 8, 1, 16), room=12, want='complete 6', records=[(1, 1), (1, 2), (1, 4), (1, 8), (1, 16), (2, 31)])
    # repeated records change nothing
    list_(XB, flat(X_LIST[:3] + X_LIST[:3]), room=30, want='complete 10', records=X_LIST[:3] + X_LIST[:3] + X_LIST[3:])
    list_(XB, (1, 3) * 9, room=40, want='complete 15', records=[(1, 3)] * 9 + X_LIST[1:])
    both(XB, flat(X_LIST * 3), room=42, want='complete 21')
    both(XB, flat(X_LIST * 3), room=60, want='complete 21')
    list_(XB, (2, 5) * 50, room=120)
    list_(XB, flat(X_LIST[::-1]), room=20, want='complete 7', records=X_LIST[::-1])
    # the empty set, as an explanation or a repair, leaves no seed: complete with nothing written, with room or without
    for record in ((1, 0), (2, 0)):
        for book in (XB, SMALLER, book_of(1, 0, []), book_of(1, 0, [(0, [], 0)]), book_of(2, 32, [])):
            for room in (2, 3, 4, 20):
                both(book, record, room=room, want='complete 1', records=[record])
        both(XB, (1, 3) + record, room=10, want='complete 2', records=[(1, 3), record])
        both(XB, record + (1, 3), room=10, want='complete 2', records=[record, (1, 3)])
        both(XB, flat(X_LIST) + list(record), room=16, want='complete 8')
    # an explanation of all groups; a repair of all groups
    list_(XB, (1, 31), room=30)
    list_(XB, (2, 31), room=30, want='complete 8', records=[(2, 31)] + X_LIST)
    # one group that must be in and must not be in
    both(XB, (1, 4, 2, 4), room=12, want='complete 2')
    both(XB, (1, 3, 2, 1, 2, 2), room=12, want='complete 3')


# ---------------------------------------------------------------- d: refusal 14

def section_d():
    huge = (2 ** 31 - 1, 2 ** 31, 2 ** 31 + 1, 2 ** 32 - 1, 2 ** 32, 2 ** 32 + 1, 2 ** 62, 2 ** 63 - 1, 2 ** 63, 2 ** 63 + 1, 2 ** 64 - 2, 2 ** 64 - 1)
    # the count: place is the words in the space, a spare one included; it is tested before the words
    for room in (0, 1, 2, 3, 14, 15, 1099):
        for count in (room // 2 + 1, room // 2 + 2, room + 1) + huge:
            both(XB, count=count, room=room, want='14@%d' % room)
        both(book_of(1, 0, []), count=room // 2 + 1, room=room, want='14@%d' % room)
    both(XB, (1, 3, 1), count=2, want='14@3')
    both(XB, (3, 32, 1), count=2, want='14@3')
    both(XB, flat(X_LIST), count=8, want='14@14')
    both(XB, flat(X_LIST), count=7, want='complete 7')
    # kinds
    for kind in (0, 3, 4, 5, 255, 256, 257, 258, 65537, 65538, 2 ** 31, 2 ** 31 + 1, ALL):
        for at in (0, 1, 2):
            given = flat(X_LIST[:at] + [(kind, 3)] + X_LIST[at:2])
            both(XB, given, room=12, want='14@%d' % (2 * at))
            both(XB, given, room=len(given), want='14@%d' % (2 * at))
            both(XB, given, count=at, room=len(given), want='stopped 3' if at == 2 else None)
    # sets
    for groups, members in ((0, 1), (0, 2), (0, ALL), (1, 2), (1, 3), (5, 32), (5, 33), (5, 63), (5, 2 ** 31), (5, ALL), (8, 256), (16, 65536),
                            (31, 2 ** 31), (31, ALL)):
        for kind in (1, 2):
            both(book_of(1, groups, []), (kind, members), room=8, want='14@1')
            both(book_of(1, groups, []), (1, 2 ** groups - 1, 2, 2 ** groups - 1, kind, members), room=8, want='14@5')
    for groups in range(9):
        for kind in (1, 2):
            both(book_of(1, groups, []), (kind, 2 ** groups - 1), room=6)
    # the set of all 32 groups: the largest seeds are all but group 1, then all but group 2
    all_both = [(1, ALL), (2, ALL)]
    both(book_of(1, 32, []), flat(all_both), known=(('stopped', 2), all_both))
    round_(book_of(1, 32, []), flat(all_both), room=9, known=(('stopped', 3), all_both + [repaired(1)]))
    list_(book_of(1, 32, []), flat(all_both), room=9, known=(('stopped', 4), all_both + [repaired(1), repaired(2)]))
    # the lowest faulty word
    for given, want in (((1, 32, 7, 0), '14@1'), ((3, 32), '14@0'), ((1, 3, 0, 32), '14@2'), ((1, 3, 1, 32, 0, 1), '14@3'),
                        ((0, 3, 1, 32, 0, 1), '14@0'), ((2, 64, 1, 32, 0, 1), '14@1'), ((1, 3, 1, 12, 9, 5), '14@4')):
        both(XB, given, want=want)
        both(XB, given, room=20, want=want)
    # a faulty word behind the count
    list_(XB, (1, 3, 9, 9), count=1, want='stopped 2', records=[(1, 3), (1, 12)])
    round_(XB, (1, 3, 9, 9), count=1, want='stopped 2', records=[(1, 3), (1, 12)])
    list_(XB, (1, 3, 9, 9, 0, ALL, 3), count=1, room=15, want='complete 7', records=X_LIST)
    list_(XB, (0, ALL), count=0, room=15, want='complete 7', records=X_LIST)
    both(XB, flat(X_LIST) + [0, 0, 3, ALL], count=7, want='complete 7', records=X_LIST)


# ---------------------------------------------------------------- e: working space, and refusals that meet in one input

def section_e():
    # working space: 8,191 words are too few; of more than 8,192 the rest stays
    for words in (0, 1, 4096, 8191, 8192, 8193, 8200, 8300):
        small = words < WORDS
        explain(XB, 31, '11@0' if small else 3, words=words)
        explain(XB, 26, '11@0' if small else 'ok', words=words)
        explain(hdr(1024, 32) + E, ALL, '11@0' if small else 'ok', words=words)
        for room, want in ((0, 'stopped 0'), (6, 'stopped 3'), (14, 'complete 7'), (15, 'complete 7')):
            list_(XB, room=room, want='11@0' if small else want, words=words)
        both(XB, flat(X_LIST), want='11@0' if small else 'complete 7', words=words)
        both(XB, (1, 0), room=4, want='11@0' if small else 'complete 1', words=words)
        round_(XB, room=2, want='11@0' if small else 'stopped 1', words=words)
        round_(XB, flat(X_LIST[:6]), room=14, want='11@0' if small else 'complete 7', words=words)
    # the book's refusals before 10, 14 and 11
    for want, book in bad_books():
        explain(book, 0, want)
        both(book, room=6, want=want)
        for words in (WORDS, 8191):
            explain(book, ALL, want, words=words)
            both(book, room=0, want=want, words=words)
            both(book, (1, 3), count=2 ** 64 - 1, want=want, words=words)
            both(book, (0, ALL), want=want, words=words)
    # 10 and 14 before 11
    for words in (8191, 0):
        for choice, want in ((32, '10@6'), (64, '10@7'), (ALL, '10@6'), (2 ** 31 + 31, '10@32'), (31, '11@0'), (0, '11@0')):
            explain(XB, choice, want, words=words)
        both(XB, count=1, room=0, want='14@0', words=words)
        both(XB, count=2, room=3, want='14@3', words=words)
        both(XB, (0, 3), want='14@0', words=words)
        both(XB, (1, 32), want='14@1', words=words)
        both(XB, (1, 3), want='11@0', words=words)
        both(XB, (1, 3, 9, 9), count=1, want='11@0', words=words)
        both(XB, room=0, want='11@0', words=words)
        both(book_of(1, 1, [(0, [], 0)]), room=4, want='11@0', words=words)
        both(book_of(1, 1, []), room=4, want='11@0', words=words)
    # 10: the lowest group that the book lacks
    for choice, want in ((32, '10@6'), (64, '10@7'), (96, '10@6'), (63, '10@6'), (2 ** 31, '10@32'), (ALL, '10@6'), (ALL - 63, '10@7'),
                         (2 ** 16, '10@17')):
        explain(XB, choice, want)
    for groups in (0, 1, 7, 8, 16, 31):
        explain(book_of(1, groups, [(0, [], 0)]), ALL, '10@%d' % (groups + 1))
        explain(book_of(1, groups, [(0, [], 0)]), 2 ** groups - 1, 0)
    # X cut at every place, and damaged
    for k in range(60):
        list_(XB[:k], room=15)
        round_(XB[:k] + bytes([XB[k] + 1]) + XB[k + 1:], room=15)
        list_(XB[:k] + bytes([XB[k] ^ 2]) + XB[k + 1:], room=15)
        explain(XB[:k] + bytes([XB[k] ^ 1]) + XB[k + 1:], 31)


# ---------------------------------------------------------------- f: shapes of books

def rows(n):
    """Each group is inconsistent by itself: n explanations, then the only repair takes all."""
    return book_of(1, n, [(g, [], 0) for g in range(1, n + 1)]), [(1, 2 ** k) for k in range(n)] + [(2, 2 ** n - 1)]


def together(n):
    """All groups are needed to break the goal: one explanation, and each group is a repair, the lowest first."""
    return book_of(n, n, [(0, list(range(1, n + 1)), 0)] + [(g, [], g) for g in range(1, n + 1)]), [(1, 2 ** n - 1)] + [(2, 2 ** k) for k in range(n)]


def ladder(n):
    """Group 1 goes with no other group: explanations {1,2}, {1,3}, ..; the repairs are {1} and all the others. After {1,2} the seed is all but
    group 1, which is consistent; then group 1 is in every seed."""
    return (book_of(1, n, [(1, [], 1)] + [(g, [1], 0) for g in range(2, n + 1)]),
            [(1, 3), (2, 1)] + [(1, 1 + 2 ** k) for k in range(2, n)] + [(2, 2 ** n - 2)])


def known_listing(family, n):
    """A listing that is known in closed form: that twin.py gives it for few groups is asserted; for many it is what is wanted."""
    for small in range(2, 9):
        assert whole(family(small)[0]) == family(small)[1]
    book, records = family(n)
    total = len(records)
    for room in (0, 1, 5, 2 * total - 2, 2 * total - 1, 2 * total, 2 * total + 3):
        fits = min(room // 2, total)
        list_(book, room=room, known=((says(fits, total).split()[0], fits), records[:fits]))
    for cut in (1, 2, total // 2, total - 1, total):
        given, later = flat(records[:cut]), min(cut + 1, total)
        round_(book, given, room=2 * total, known=((says(later, total).split()[0], later), records[:later]))
        list_(book, given, room=2 * total, known=(('complete', total), records))
        both(book, given, known=((says(cut, total).split()[0], cut), records[:cut]))
    for kind, members in records[:3] + records[total // 2:total // 2 + 2] + records[-2:]:
        choice = members if kind == 1 else 2 ** n - 1 - members
        explain(book, choice, known=('explanation', members) if kind == 1 else ('consistent',))
    explain(book, 2 ** n - 1, known=('explanation', records[0][1]))


def section_f():
    # consistent books: one repair, the empty set; a full room is not complete before it is written
    for book in (book_of(3, 0, []), book_of(3, 5, []), book_of(3, 2, [(1, [], 1), (2, [1], 2)]), book_of(3, 3, [(1, [1, 2], 0), (3, [], 1)]),
                 book_of(1024, 32, []), book_of(2, 32, [(32, [], 1), (31, [2], 0)])):
        every_room(book)
        both(book, (2, 0), want='complete 1')
        explain(book, 2 ** twin.check(bytes(book))[2] - 1, 'ok')
    # an inconsistent core: one explanation, the empty set
    for book in (book_of(3, 0, [(0, [], 0)]), book_of(3, 5, [(0, [], 1), (0, [1], 0)]), book_of(3, 3, X[2][:1] + [(0, [], 3), (1, [], 1)]),
                 book_of(1, 32, [(0, [], 0)]), book_of(1, 8, [(g, [], 0) for g in range(9)])):
        every_room(book)
        both(book, (1, 0), want='complete 1')
        groups = twin.check(bytes(book))[2]
        for choice in (0, 2 ** groups - 1, 2 ** groups // 2):
            explain(book, choice, 0)
    # groups with no clause stand in no record
    holes = book_of(3, 9, [({1: 2, 2: 3, 3: 5, 4: 6, 5: 9}.get(group, 0), body, head) for group, body, head in X[2]])
    list_(holes, room=20, want='complete 7')
    every_cut(holes)
    # a group whose clauses are of several kinds goes as a whole
    every_cut(book_of(3, 3, [(1, [], 1), (1, [1], 2), (1, [3], 0), (2, [2], 0), (2, [], 3), (3, [2], 3)]))
    # equal clauses, also in different groups
    every_cut(book_of(2, 4, [(1, [], 1), (2, [], 1), (3, [1], 0), (4, [1], 0), (4, [1], 0), (1, [], 1)]))
    # a head in its own body; a circle
    every_cut(book_of(3, 3, [(1, [1], 1), (2, [], 1), (0, [1, 2], 2), (3, [], 2), (0, [2], 0)]))
    every_cut(book_of(4, 4, [(1, [1], 2), (2, [2], 3), (3, [3], 1), (4, [], 3), (0, [1, 2, 3], 0)]))
    # 32 groups, of which 30 stand in no record: with no clause, or with a fact that nothing needs
    for a, b in ((1, 2), (1, 32), (16, 17)):
        for others in ((), tuple((g, [], 2) for g in range(1, 33) if g not in (a, b))):
            book = book_of(2, 32, [(a, [], 1), (b, [1], 0)] + list(others))
            records = [explained(a, b), repaired(a), repaired(b)]
            list_(book, room=8, want='complete 3', records=records)
            every_cut(book)
            explain(book, ALL, choice_of(a, b))
            explain(book, ALL - choice_of(a), 'ok')
            explain(book, ALL - choice_of(b), 'ok')
            explain(book, choice_of(a, b), choice_of(a, b))
    for book in (book_of(1, 32, [(32, [], 0)]), book_of(1, 32, [(1, [], 0)]), book_of(1, 31, [(31, [], 0)]),
                 book_of(3, 32, [(g and 32 - 4 * g, body, head) for g, body, head in X[2]])):
        every_cut(book)
    # 32 groups and records of another book
    both(book_of(1, 32, []), (1, 2 ** 31), room=8, records=[(1, 2 ** 31), (2, 2 ** 31)])
    both(book_of(1, 32, []), (2, 2 ** 31, 2, 1), room=8, records=[(2, 2 ** 31), (2, 1), (2, 0)])
    # all of 31 and 32 groups in records
    for n in (31, 32):
        for family in (rows, together, ladder):
            known_listing(family, n)


# ---------------------------------------------------------------- g: large books

def section_g():
    # a rising and a falling chain of 1,024 variables, three of its clauses in groups
    chain = [(0, [], 1)] + [({100: 1, 500: 3, 1000: 2}.get(v, 0), [v], v + 1) for v in range(1, 1024)] + [(0, [1024], 0)]
    for clauses in (chain, chain[::-1]):
        book = book_of(1024, 3, clauses)
        explain(book, 7, 7)
        explain(book, 6, 'ok')
        list_(book, room=10, want='complete 4', records=[(1, 7), (2, 1), (2, 2), (2, 4)])
    # 2,048 clauses: two ways to break the last
    many = book_of(300, 4, [(4, [v], 300) for v in range(1, 255)] * 8 + [(1, [], 7), (2, [], 200), (3, [300], 0), (2, [], 9)] * 4)
    assert twin.check(bytes(many))[3] == 2048
    list_(many, room=20, want='complete 5')
    explain(many, 15, 13)
    explain(many, 14, 14)
    # bodies of 32 whose facts stand in 4 groups
    long = book_of(33, 4, [(0, list(range(1, 33)), 33), (0, [33], 0)] + [(v % 4 + 1, [], v) for v in range(1, 33)])
    every_room(long)
    # the largest book
    largest = book_of(1024, 3, [(1, list(range(1, 33)), 1024)] * 798 + [(2, list(range(1, 33)), 0), (3, list(range(1, 31)), 1023)] +
                      [(0, [], v) for v in range(32, 0, -1)] + [(0, [], 5)] * 1215)
    assert len(largest) == 65535
    list_(largest, room=10, want='complete 2', records=[(1, 2), (2, 2)])
    explain(largest, 7, 2)
    explain(largest, 5, 'ok')
    # one byte more, good but for that
    explain(book_of(*long_book(65536, 2048, 2)), 0, '1@0')
    both(book_of(*long_book(65536, 2048, 2)), room=4, want='1@0')


# ---------------------------------------------------------------- h: random small books

def random_clause(rng, v, g):
    group = rng.randrange(g + 1) if rng.randrange(6) else rng.choice((0, g))
    kind = rng.randrange(10)
    if kind < 4:                                                    # a fact
        return group, [], rng.randrange(1, v + 1)
    body = sorted(rng.sample(range(1, v + 1), min(v, rng.choice((1, 1, 1, 2, 2, 3)))))
    if kind < 7:
        return group, body if rng.randrange(40) else [], 0          # a goal, now and then one that is always false
    return group, body, rng.randrange(1, v + 1)


def random_book(rng):
    """Facts, goals and clauses between few variables, now and then repeated; groups may have none."""
    v, g = rng.choice((1, 2, 2, 3, 3, 3, 4, 4, 5, 6)), rng.choice((0, 1, 2, 3, 4, 5, 5, 6, 6, 6, 7, 7, 7))
    clauses = [random_clause(rng, v, g) for _ in range(rng.choice((0, 2, 4, 6, 8, 9, 10, 11, 12, 12, 13, 13, 14, 14, 14)))]
    if g > 1 and rng.randrange(6):                                  # few in the core, so that it is consistent
        clauses = [(rng.randrange(1, g + 1), body, head) if group == 0 and rng.randrange(5) else (group, body, head) for group, body, head in clauses]
    if clauses and rng.randrange(5) == 0:
        clauses[rng.randrange(len(clauses))] = rng.choice(clauses)
    return v, g, clauses


def random_records(rng, groups, n):
    """Well-formed records of no book in particular, now and then one repeated."""
    records = [(rng.choice((1, 2)), rng.randrange(2 ** groups)) for _ in range(n)]
    if groups:                                                      # the empty set only now and then: it ends a listing
        records = [(kind, members or (rng.randrange(4) and rng.randrange(1, 2 ** groups))) for kind, members in records]
    if n > 1 and rng.randrange(4) == 0:
        records[-1] = records[0]
    return records


def random_words(rng):
    return rng.choice((8192, 8192, 8192, 8193, 8200, 8300)) if rng.randrange(40) else rng.choice((0, 1, 8191))


def random_explain(rng, book, groups):
    choice = rng.randrange(2 ** groups) if rng.randrange(3) else 2 ** groups - 1
    if rng.randrange(25) == 0:
        choice |= rng.choice((2 ** groups, 2 ** 31, rng.randrange(2 ** 32))) % 2 ** 32
    explain(book, choice, words=random_words(rng))


def random_listing(rng, book, groups, records):
    """From nothing, from a cut of its own listing, or from other records."""
    style = rng.randrange(6)
    if style < 2:
        start = []
    elif style < 4:
        start = records[:rng.randrange(len(records) + 1)]
    else:
        start = random_records(rng, groups, rng.randrange(1, 6))
    given = flat(start)
    count, end = len(start), len(given) if style > 3 else 2 * len(records)
    room = rng.choice((end, end, end + 1, end + 2, end - 2, end + rng.randrange(12), len(given) + 2, rng.randrange(len(given), max(end, len(given)) + 4)))
    fault = rng.randrange(25)
    if fault == 0:
        count = rng.choice((1, 1, 2, 2 ** 31, 2 ** 63)) + max(room, len(given)) // 2
    elif fault == 1 and given:
        k = rng.randrange(len(given))
        given[k] = rng.choice((0, 3, 2 ** groups, ALL)) if k % 2 == 0 else min(ALL, 2 ** groups + rng.choice((0, 0, rng.randrange(2 ** 31))))
    run(rng.choice((ROUND, LIST, LIST)), book, given, count=count, room=max(room, len(given)), words=random_words(rng))


def section_h():
    rng = random.Random(SEED)
    for _ in range(BOOKS):
        v, groups, clauses = random_book(rng)
        book = book_of(v, groups, clauses)
        records = whole(book)
        if rng.randrange(12) == 0:
            for _ in range(rng.choice((1, 1, 2, 3))):
                book = damaged_book(rng, book)
        elif rng.randrange(40) == 0:
            book = random_fields(rng)
        checked = twin.check(bytes(book))
        if checked[0] == 'book' and checked[2] > 7:                 # damaged into one of many groups
            continue
        random_explain(rng, book, groups)
        random_listing(rng, book, groups, records)


# ---------------------------------------------------------------- the two files and the counts

def main():
    for letter, make in (('a', section_a), ('b', section_b), ('c', section_c), ('d', section_d), ('e', section_e),
                         ('f', section_f), ('g', section_g), ('h', section_h)):
        section(letter)
        make()
    section('end')
    store(cases, lines)
    for (letter, n, size), (_, n2, size2) in zip(sections, sections[1:]):
        print('section %s: %d cases, %d bytes' % (letter, n2 - n, size2 - size))
    print('%d cases, %d bytes of cases, seed %d' % (len(lines), len(cases), SEED))
    for call, name in CALLS.items():
        print('%s: ' % name + ', '.join('%s: %d' % (key, tally[call][key]) for key in OCCUR[call]))
    print('held to the meanings over all assignments: %d consistent choices, %d inconsistent' % (held['consistent'], held['inconsistent']))
    for call, name in CALLS.items():
        for key in OCCUR[call]:
            if tally[call][key] == 0:
                sys.exit('never met: %s %s' % (name, key))
        for key in tally[call]:
            if key not in OCCUR[call]:
                sys.exit('cannot occur: %s %s' % (name, key))


if __name__ == '__main__':
    main()
