"""usage: answer_sets.py [--room N] BOOK -- lists a rule book by clingo: its explanations, then its repairs.

A choice of groups and what it forces are one logic program. Explanations are its answer sets that break a goal with as few groups as can be, by set
inclusion; repairs are what the answer sets leave out that break none with as many groups as can be: both by clingo's domain heuristic, which decides
groups first. Prints the records as the listing program does, the last line being complete or stopped; then `seconds` and the CPU time that clingo
says of its two runs, reading and grounding included.
"""
import argparse
import subprocess

from book_bytes import clauses_of


def program(groups, clauses, explanations):
    lines = ['{in(1..%d)}.' % groups if groups else '']
    for group, head, body in clauses:
        conditions = ['forced(%d)' % variable for variable in body] + (['in(%d)' % group] if group else [])
        lines.append('%s%s.' % ('forced(%d)' % head if head else 'broken', ' :- ' + ', '.join(conditions) if conditions else ''))
    lines.append(':- not broken.' if explanations else ':- broken.')
    lines.append('#heuristic in(G) : G = 1..%d. [1,%s]' % (groups, 'false' if explanations else 'true'))
    lines.append('#show in/1.')
    lines.append('#defined broken/0. #defined forced/1. #defined in/1.')
    return '\n'.join(lines)


def answer_sets(text, most):
    """The answer sets, at most so many, as sets of groups, whether there are no more, and clingo's CPU seconds."""
    command = ['clingo', '--warn=none', '--heuristic=Domain', '--enum-mode=domRec', '--models=%d' % most]
    found, lines = [], subprocess.run(command, input=text, capture_output=True, text=True).stdout.splitlines()
    for line, after in zip(lines, lines[1:]):
        if line.startswith('Answer: '):
            found.append({int(atom[3:-1]) for atom in after.split()})
    whole = not any(line.startswith('Models') and line.endswith('+') for line in lines)
    return found, whole, sum(float(line.split(':')[1].rstrip('s')) for line in lines if line.startswith('CPU Time'))


def main():
    parser = argparse.ArgumentParser(usage=__doc__)
    parser.add_argument('--room', type=int, default=4096)
    parser.add_argument('book')
    arguments = parser.parse_args()
    with open(arguments.book, 'rb') as file:
        groups, clauses = clauses_of(file.read())
    explained, all_explained, spent = answer_sets(program(groups, clauses, True), arguments.room)
    room = arguments.room - len(explained)
    kept, all_kept, more = answer_sets(program(groups, clauses, False), room) if room else ([], False, 0)
    records = [('explain', found) for found in explained] + [('repair', set(range(1, groups + 1)) - found) for found in kept]
    print('groups %d' % groups)
    for kind, found in records:
        print(kind, ' '.join(map(str, sorted(found))) or 'none')
    print('%s %d' % ('complete' if all_explained and all_kept else 'stopped', len(records)))
    print('seconds %.6f' % (spent + more))


if __name__ == '__main__':
    main()
