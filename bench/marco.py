"""usage: marco.py [--room N] [--limit SECONDS] BOOK -- lists a rule book by the loop of document 000 (algorithms 1 and 2) over z3.

One solver holds the book, each group switched on by an assumption; a second one, the map, holds what the records leave open. Prints the records as the
listing program does, in the order in which the loop finds them, the last line being complete or stopped; then `seconds` and the CPU time of the
loop, without the start of the process, the reading of the book and the making of the clauses. Past the time limit that line is `over SECONDS`.
"""
import argparse
import time

import z3

from book_bytes import clauses_of


class Book:
    def __init__(self, groups, clauses):
        self.solver = z3.SimpleSolver()
        self.chosen = [z3.Bool('g%d' % group) for group in range(1, groups + 1)]
        self.place = {chosen.get_id(): at for at, chosen in enumerate(self.chosen)}
        for group, head, body in clauses:
            literals = [z3.Not(z3.Bool('v%d' % variable)) for variable in body]
            literals += [z3.Not(self.chosen[group - 1])] if group else []
            literals += [z3.Bool('v%d' % head)] if head else []
            self.solver.add(z3.Or(literals))

    def core_within(self, seed):
        """None if the seed is consistent, else an inconsistent part of it."""
        if self.solver.check([self.chosen[at] for at in seed]) == z3.sat:
            return None
        return {self.place[literal.get_id()] for literal in self.solver.unsat_core()}

    def explanation(self, within):
        """Takes out what can be taken out; each question that stays inconsistent may take out more."""
        needed = set()
        while within - needed:
            group = min(within - needed)
            core = self.core_within(within - {group})
            if core is None:
                needed.add(group)
            else:
                within = core
        return within


class Map:
    def __init__(self, groups):
        self.solver = z3.SimpleSolver()
        self.picked = [z3.Bool('p%d' % group) for group in range(1, groups + 1)]
        self.negated = [z3.Not(picked) for picked in self.picked]
        self.explained = set()

    def trial(self, with_groups, without):
        """A choice that the records leave open, or None."""
        assumed = [self.picked[at] for at in with_groups] + [self.negated[at] for at in without]
        if self.solver.check(assumed) != z3.sat:
            return None
        model = self.solver.model()
        return {at for at, picked in enumerate(self.picked) if not z3.is_false(model[picked])}

    def seed(self):
        """A largest choice that the records leave open. A group that no explanation holds is in it from the start."""
        pure = set(range(len(self.picked))) - self.explained
        found = self.trial(pure, ())
        if found is None:
            return None
        seed, without = found, set()
        for at in range(len(self.picked)):
            if at not in seed:
                found = self.trial(seed | {at}, without)
                if found is None:
                    without.add(at)
                else:
                    seed |= found
        return seed

    def block_explanation(self, groups):
        self.explained |= groups
        self.solver.add(z3.Or([self.negated[at] for at in groups]))

    def block_repair(self, groups):
        self.solver.add(z3.Or([self.picked[at] for at in groups]))


def listing(groups, clauses, room, limit):
    """The records, how the listing ended, and its CPU seconds."""
    book, open_choices, records = Book(groups, clauses), Map(groups), []
    begun = time.process_time()
    while True:
        seed = open_choices.seed()
        spent = time.process_time() - begun
        if seed is None or len(records) == room or spent > limit:
            return records, 'complete' if seed is None else 'stopped' if len(records) == room else 'over', spent
        core = book.core_within(seed)
        if core is None:
            repair = set(range(groups)) - seed
            open_choices.block_repair(repair)
            records.append(('repair', repair))
        else:
            explanation = book.explanation(core)
            open_choices.block_explanation(explanation)
            records.append(('explain', explanation))


def main():
    parser = argparse.ArgumentParser(usage=__doc__)
    parser.add_argument('--room', type=int, default=4096)
    parser.add_argument('--limit', type=float, default=60)
    parser.add_argument('book')
    arguments = parser.parse_args()
    with open(arguments.book, 'rb') as file:
        groups, clauses = clauses_of(file.read())
    records, end, spent = listing(groups, clauses, arguments.room, arguments.limit)
    print('groups %d' % groups)
    for kind, found in records:
        print(kind, ' '.join(str(at + 1) for at in sorted(found)) or 'none')
    print('over %d' % arguments.limit if end == 'over' else '%s %d' % (end, len(records)))
    print('seconds %.6f' % spent)


if __name__ == '__main__':
    main()
