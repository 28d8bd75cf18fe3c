"""Rule books: check, read, write, ask, explain, round, list.  Document 01 as docs/DECISIONS.md reads it.

Answers are tuples:
  check(book)         -> ('book', variables, groups, clauses)  or ('refused', number, place)
  read(book, space)   -> ('count', numbers written)            or ('refused', number, place)
  write(plain, space) -> ('count', bytes written)              or ('refused', number, place)
  ask(book, choice, out, work) -> ('consistent',) or ('contradiction', clause)  or ('refused', number, place)
  explain(book, choice, work)  -> ('consistent',) or ('explanation', choice)    or ('refused', number, place)
  round_(book, records, count, work), list_(book, records, count, work)
                               -> ('complete', records) or ('stopped', records) or ('refused', number, place)
book: bytes.  plain: list of i32.  choice: group g adds 2^(g-1).  records: list of words, two to a record, of which `count` are there.
space, out, records, work: lists, changed in place, never on a refusal.
"""
import functools
import itertools

BOOK_BYTES, VARIABLES, GROUPS, CLAUSES, BODY, WORDS = 65535, 1024, 32, 2048, 32, 8192
END, HEADER, CLAUSE = 0, 1, 2
EXPLANATION, REPAIR = 1, 2


class Refused(Exception):
    def answer(self):
        return ('refused',) + self.args


def refuse_if(condition, number, place):
    if condition:
        raise Refused(number, place)


# ---------------------------------------------------------------- reading: a book's fields

def numbers(value):
    """The value's two-byte numbers, high byte first."""
    return [value[k] * 256 + value[k + 1] for k in range(0, len(value), 2)]


def header_field(value, at):
    refuse_if(len(value) != 4, 5, at)                                       # 5 header length not 4
    variables, groups = numbers(value)
    refuse_if(not 1 <= variables <= VARIABLES or groups > GROUPS, 7, at)    # 7 outside its limit
    return variables, groups


def clause_field(value, at, variables, groups, clauses_before):
    refuse_if(len(value) < 4 or len(value) % 2 == 1 or len(value) > 68, 5, at)  # 5 clause length
    refuse_if(clauses_before == CLAUSES, 6, at)                             # 6 clause 2,049
    group, head, *body = numbers(value)
    refuse_if(group > groups or head > variables, 7, at)                    # 7 outside the header's counts
    refuse_if(any(not 1 <= v <= variables for v in body), 7, at)            # 7 the whole field first
    refuse_if(any(a >= b for a, b in zip(body, body[1:])), 8, at)           # 8 not strictly rising
    return group, body, head


def end_field(value, at):
    refuse_if(len(value) != 0, 5, at)                                       # 5 end not 0


def walk(book):
    """Variables, groups and the list of clauses (group, body, head), or Refused."""
    refuse_if(len(book) > BOOK_BYTES, 1, 0)                                 # 1 before everything
    at, clauses = 0, []
    while True:
        refuse_if(len(book) - at < 3, 2, at)                                # 2 a field is due
        tag, after = book[at], at + 3 + book[at + 1] * 256 + book[at + 2]
        refuse_if(after > len(book), 2, at)                                 # 2 length runs past the end
        value = book[at + 3:after]
        refuse_if(tag not in (END, HEADER, CLAUSE), 3, at)                  # 3 unknown tag
        refuse_if((tag == HEADER) != (at == 0), 4, at)                      # 4 no header first, or one later
        if tag == HEADER:
            variables, groups = header_field(value, at)
        elif tag == CLAUSE:
            clauses.append(clause_field(value, at, variables, groups, len(clauses)))
        else:
            end_field(value, at)
            refuse_if(after < len(book), 9, after)                          # 9 bytes after the end
            return variables, groups, clauses
        at = after


def to_plain(variables, groups, clauses):
    plain = [variables, groups]
    for group, body, head in clauses:
        plain += [group] + [-v for v in body] + [head] * (head != 0) + [0]
    return plain


# ---------------------------------------------------------------- writing: a plain form's numbers

def plain_header(plain):
    refuse_if(len(plain) > 0 and not 1 <= plain[0] <= VARIABLES, 7, 0)      # 7 before 12 if it exists
    refuse_if(len(plain) > 1 and not 0 <= plain[1] <= GROUPS, 7, 1)         # 7
    refuse_if(len(plain) < 2, 12, len(plain))                               # 12 under two numbers
    return plain[0], plain[1]


def plain_clause(plain, at, variables, groups, clauses_before):
    """The clause whose group is at `at`, and the index behind its 0."""
    group, body, head = plain[at], [], 0
    refuse_if(clauses_before == CLAUSES, 6, at)                             # 6 then 7 at a group
    refuse_if(not 0 <= group <= groups, 7, at)                              # 7 group
    at += 1
    while at < len(plain):
        x = plain[at]
        if x == 0:
            return (group, body, head), at + 1
        refuse_if(not -variables <= x <= variables, 7, at)                  # 7 literal
        refuse_if(x > 0 and head != 0, 13, at)                              # 13 second positive
        refuse_if(x < 0 and head != 0, 8, at)                               # 8 a negative after the head
        refuse_if(x < 0 and body != [] and -x <= body[-1], 8, at)           # 8 not strictly rising
        refuse_if(x < 0 and len(body) == BODY, 5, at)                       # 5 the 33rd body literal
        if x > 0:
            head = x
        else:
            body.append(-x)
        at += 1
    raise Refused(12, len(plain))                                           # 12 ends before its 0


def plain_walk(plain):
    """Variables, groups and the list of clauses (group, body, head), or Refused."""
    variables, groups = plain_header(plain)
    at, clauses = 2, []
    while at < len(plain):
        clause, at = plain_clause(plain, at, variables, groups, len(clauses))
        clauses.append(clause)
    return variables, groups, clauses


def field(tag, values):
    value = [byte for n in values for byte in (n // 256, n % 256)]
    return [tag, len(value) // 256, len(value) % 256] + value


def to_book(variables, groups, clauses):
    book = field(HEADER, [variables, groups])
    for group, body, head in clauses:
        book += field(CLAUSE, [group, head] + body)
    return book + field(END, [])


# ---------------------------------------------------------------- asking: clauses in force, forced variables

def in_choice(group, choice):
    return choice // 2 ** (group - 1) % 2 == 1


def in_force(clauses, choice):
    """The clauses of group 0 and of the chosen groups, each as (its number, body, head)."""
    return [(number, body, head) for number, (group, body, head) in enumerate(clauses, 1)
            if group == 0 or in_choice(group, choice)]


def forced_variables(clauses):
    """The least set closed under the clauses with a head; a broken goal stops nothing."""
    forced, closed = set(), False
    while not closed:
        closed = True
        for _, body, head in clauses:
            if head != 0 and head not in forced and all(v in forced for v in body):
                forced.add(head)
                closed = False
    return forced


# ---------------------------------------------------------------- explaining, rounds: by trying all choices

def choice_of(groups):
    return sum(2 ** (group - 1) for group in groups)


def groups_of(choice):
    return [group for group in range(1, GROUPS + 1) if in_choice(group, choice)]


@functools.lru_cache(64)
def choices_from(groups):
    """All choices that have only these groups, the largest number first."""
    sets = itertools.chain.from_iterable(itertools.combinations(groups, size) for size in range(len(groups) + 1))
    return sorted(map(choice_of, sets), reverse=True)


class Rules:
    """The clauses of a book, to try all choices on. In a book of more than FEW groups not all choices can be tried; what may be left out is said
    where it is. check_twin.py holds both ways to the meanings."""
    FEW = 10

    def __init__(self, groups, clauses):
        self.groups, self.clauses = groups, clauses
        self.known = {}

    def consistent(self, choice):
        """No goal clause in force has its whole body forced."""
        if choice not in self.known:
            clauses = in_force(self.clauses, choice)
            forced = forced_variables(clauses)
            self.known[choice] = not any(head == 0 and all(v in forced for v in body) for _, body, head in clauses)
        return self.known[choice]

    def explanation(self, choice):
        """The smallest number among the inconsistent choices within this one, which is inconsistent. In a book of many groups those are left out
        that have only clauses whose head stands in no body: no broken goal needs them, so without them an inconsistent choice stays so, and its
        number is smaller."""
        tried = groups_of(choice)
        if self.groups > self.FEW:
            needed = {v for _, body, _ in self.clauses for v in body}
            tried = [g for g in tried if any(group == g and (head == 0 or head in needed) for group, _, head in self.clauses)]
        return min(some for some in choices_from(tuple(tried)) if not self.consistent(some))

    def seed(self, records):
        """The largest number among the choices that contain no listed explanation and share a group with every listed repair, or None. In a book
        of many groups those that no record has are always taken: with one of them a choice passes as without it, and its number is larger."""
        tried = range(1, self.groups + 1)
        if self.groups > self.FEW:
            tried = [group for group in tried if any(in_choice(group, members) for _, members in records)]
        taken = choice_of(set(range(1, self.groups + 1)) - set(tried))
        for choice in choices_from(tuple(tried)):
            if all(passes(choice + taken, kind, members) for kind, members in records):
                return choice + taken
        return None

    def record(self, seed):
        """What the seed yields."""
        if self.consistent(seed):
            return REPAIR, 2 ** self.groups - 1 - seed
        return EXPLANATION, self.explanation(seed)


def passes(choice, kind, members):
    """An explanation is not contained; with a repair there is a group in common."""
    return choice & members != members if kind == EXPLANATION else choice & members != 0


@functools.lru_cache(256)
def rules_of(book):
    _, groups, clauses = walk(book)
    return Rules(groups, clauses)


# ---------------------------------------------------------------- the calls

def put(written, space):
    refuse_if(len(written) > len(space), 11, 0)                             # 11 lent space too small
    space[:len(written)] = written                                          # what follows stays
    return 'count', len(written)


def check(book):
    try:
        variables, groups, clauses = walk(book)
        return 'book', variables, groups, len(clauses)
    except Refused as refused:
        return refused.answer()


def read(book, space):
    try:
        return put(to_plain(*walk(book)), space)
    except Refused as refused:
        return refused.answer()


def write(plain, space):
    try:
        variables, groups, clauses = plain_walk(plain)
        length = 10 + sum(7 + 2 * len(body) for _, body, _ in clauses)
        refuse_if(length > BOOK_BYTES, 1, 0)                                # 1 at the end, before 11
        book = to_book(variables, groups, clauses)
        assert len(book) == length                                          # the length document 01 states
        return put(book, space)
    except Refused as refused:
        return refused.answer()


def refuse_lacking(groups, choice):
    for group in range(groups + 1, GROUPS + 1):
        refuse_if(in_choice(group, choice), 10, group)                      # 10 the lowest group the book lacks


def ask(book, choice, out, work):
    try:
        variables, groups, clauses = walk(book)
        refuse_lacking(groups, choice)
        refuse_if(len(out) < variables or len(work) < WORDS, 11, 0)         # 11 after 10
    except Refused as refused:
        return refused.answer()
    clauses = in_force(clauses, choice)
    forced = forced_variables(clauses)
    broken = [number for number, body, head in clauses if head == 0 and all(v in forced for v in body)]
    out[:variables] = [1 if v in forced else 0 for v in range(1, variables + 1)]
    work[:WORDS] = [0] * WORDS
    return ('contradiction', min(broken)) if broken else ('consistent',)


def explain(book, choice, work):
    try:
        _, groups, _ = walk(book)
        refuse_lacking(groups, choice)
        refuse_if(len(work) < WORDS, 11, 0)                                 # 11 after 10
    except Refused as refused:
        return refused.answer()
    work[:WORDS] = [0] * WORDS
    rules = rules_of(book)
    return ('consistent',) if rules.consistent(choice) else ('explanation', rules.explanation(choice))


def records_of(words, count):
    return [(words[2 * k], words[2 * k + 1]) for k in range(count)]


def refuse_records(groups, words, count):
    refuse_if(count > len(words) // 2, 14, len(words))                      # 14 the count first
    for k, (kind, members) in enumerate(records_of(words, count)):
        refuse_if(kind not in (EXPLANATION, REPAIR), 14, 2 * k)             # 14 the lowest faulty word
        refuse_if(members >= 2 ** groups, 14, 2 * k + 1)


def rounds(book, words, count, work, most):
    """At most so many rounds, while there is a seed and a whole record fits."""
    try:
        _, groups, _ = walk(book)
        refuse_records(groups, words, count)
        refuse_if(len(work) < WORDS, 11, 0)                                 # 11 after 14; never for the record room
    except Refused as refused:
        return refused.answer()
    work[:WORDS] = [0] * WORDS
    rules, room = rules_of(book), min(len(words) // 2, count + most)
    seed = rules.seed(records_of(words, count))
    while seed is not None and count < room:
        words[2 * count:2 * count + 2] = rules.record(seed)
        count += 1
        seed = rules.seed(records_of(words, count))
    return ('complete' if seed is None else 'stopped'), count               # a seed is looked for also where the room is full


def round_(book, records, count, work):
    return rounds(book, records, count, work, 1)


def list_(book, records, count, work):
    return rounds(book, records, count, work, len(records))
