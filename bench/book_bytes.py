"""Rule books as bytes, for the peers that are written in Python."""
import struct


def clauses_of(book):
    """Groups, and for each clause its group, head and body."""
    groups, at, clauses = struct.unpack('>H', book[5:7])[0], 7, []
    while book[at] == 2:
        length = struct.unpack('>H', book[at + 1:at + 3])[0]
        group, head, *body = struct.unpack('>%dH' % (length // 2), book[at + 3:at + 3 + length])
        clauses.append((group, head, body))
        at += 3 + length
    return groups, clauses
