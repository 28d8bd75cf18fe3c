"""usage: check_twin.py -- holds explain, round and list of twin.py to the meanings of document 01, on random small books.

Here a choice is consistent if some assignment satisfies all clauses in force: each assignment is tried. The explanations and the repairs are
found as document 01 defines them, by taking or giving back single groups. Then, for each book: a listing that begins empty ends complete and holds
exactly these, each once; every choice is explained by the smallest explanation within it; rounds from any records, also those of another book,
follow the round rule; and the ways of twin.py for books of many groups give the same.
"""
import random
from collections import Counter

import twin
from make_cases import book_of
from make_list_cases import random_book, random_records

BOOKS, SEED = 2000, 20240915


def consistent_choices(variables, groups, clauses):
    """The choices that some assignment satisfies."""
    def true_in(assignment, body, head):
        return not all(v in assignment for v in body) or head in assignment

    satisfied = [[k for k, clause in enumerate(clauses) if true_in(assignment, *clause[1:])]
                 for assignment in ({v for v in range(1, variables + 1) if bits >> v - 1 & 1} for bits in range(2 ** variables))]
    found = set()
    for choice in range(2 ** groups):
        force = {k for k, (group, _, _) in enumerate(clauses) if group == 0 or choice >> group - 1 & 1}
        if any(force.issubset(some) for some in satisfied):
            found.add(choice)
    return found


def single_groups(choice):
    return [2 ** k for k in range(32) if choice >> k & 1]


def by_meaning(groups, consistent):
    """All explanations and all repairs."""
    every = 2 ** groups
    explanations = [c for c in range(every) if c not in consistent and all(c - g in consistent for g in single_groups(c))]
    repairs = [c for c in range(every) if every - 1 - c in consistent and all(every - 1 - c + g not in consistent for g in single_groups(c))]
    return explanations, repairs


def round_by_rule(groups, consistent, explanations, records):
    """The record of the next round, or None."""
    seeds = [c for c in range(2 ** groups) if all(c & s != s for kind, s in records if kind == 1) and all(c & s for kind, s in records if kind == 2)]
    if not seeds:
        return None
    seed = max(seeds)
    if seed in consistent:
        return 2, 2 ** groups - 1 - seed
    return 1, min(e for e in explanations if e & seed == e)


def listing(book, count=0, words=()):
    words = list(words) + [7] * (600 - len(words))
    answer = twin.list_(book, words, count, [1] * 8192)
    assert answer[0] == 'complete' and set(words[2 * answer[1]:]) == {7}
    return twin.records_of(words, answer[1])


def check_book(rng, tally):
    variables, groups, clauses = random_book(rng)
    book = book_of(variables, groups, clauses)
    consistent = consistent_choices(variables, groups, clauses)
    explanations, repairs = by_meaning(groups, consistent)
    records = listing(book)
    assert sorted(records) == [(1, e) for e in explanations] + [(2, r) for r in repairs]
    for choice in range(2 ** groups):
        within = [e for e in explanations if e & choice == e]
        assert twin.explain(book, choice, [1] * 8192) == (('explanation', min(within)) if within else ('consistent',))
    for some in (records[:rng.randrange(len(records) + 1)], random_records(rng, groups, rng.randrange(5))):
        while some is not None:
            new = round_by_rule(groups, consistent, explanations, some)
            words = [word for record in some for word in record] + [7] * 3
            answer = twin.round_(book, words, len(some), [1] * 8192)
            later = some + [new] if new else some
            assert words == [word for record in later for word in record] + [7] * (3 - 2 * (new is not None))
            last = round_by_rule(groups, consistent, explanations, later) is None
            assert answer == ('complete' if last else 'stopped', len(later))
            tally['rounds'] += 1
            some = later if new else None
    twin.rules_of.cache_clear()
    twin.Rules.FEW = -1
    assert listing(book) == records
    few = random_records(rng, groups, 3)
    many_way = listing(book, 3, [word for record in few for word in record])
    twin.rules_of.cache_clear()
    twin.Rules.FEW = 10
    assert listing(book, 3, [word for record in few for word in record]) == many_way
    tally['books'] += 1
    tally['explanations'] += len(explanations)
    tally['repairs'] += len(repairs)
    tally['consistent books'] += 2 ** groups - 1 in consistent
    tally['inconsistent cores'] += 0 not in consistent
    tally['choices'] += 2 ** groups


def main():
    rng, tally = random.Random(SEED), Counter()
    for _ in range(BOOKS):
        check_book(rng, tally)
    print('seed %d: ' % SEED + ', '.join('%d %s' % (n, what) for what, n in tally.items()))


if __name__ == '__main__':
    main()
