#!/usr/bin/env python3
"""Writes the files of crates/evenings/data, one for each group: the evenings that the program `evenings` asks about, and
what is to be said of each.

What a case expects is never taken from a run of the code under test. It comes from the specification's own tables, from
calls.jsonl beside this file, or from the walk below, which was written from the specification alone. calls.jsonl is a copy
of calls made by an implementation that was written from the specification alone too and shares nothing with this
repository.
Before a case is written, the walk below has to agree with every table and with every one of those calls.

It takes no arguments, and prints how many cases there are in each group. crates/evenings/stdout says the same numbers.

A case is a head of 14 numbers, 4 bytes each, least byte first, and then its parts: its name, the trace file, the events
expected. crates/evenings/src/case.rt says where each number stands.
"""
import json
import os
import sys

HERE = os.path.dirname(os.path.abspath(__file__))
DATA = os.path.join(HERE, '..', 'crates', 'evenings', 'data')
GROUPS = ['worked', 'papers', 'calls', 'deep']
EXPLAINED, UNEXPLAINED, UNDECIDED, REFUSED = 0, 1, 2, 10
READ, WRITE, STABILIZE, FAILED, UP, DOWN = 1, 2, 3, 4, 5, 6
MANY, MOST = 1000000, 4294967295
cases = []

# A record is a kind, a tablet, a new value, a seen value and a set of values. An answer is a status, a number of points, a
# place, and the bytes of the events.


# The model: what each event needs, and what it does. A state is the server's value, the conflict set, the local values, the
# fresh tablets and the dirty tablets. Tablets are counted from 1.

def first_state(n):
    return 0, frozenset(), (0,) * n, frozenset(range(1, n + 1)), frozenset()


def with_local(local, tablet, value):
    return local[:tablet - 1] + (value,) + local[tablet:]


def observed(state, record):
    """The state after an observation, or None where it is not possible."""
    server, conflicts, local, fresh, dirty = state
    kind, tablet, new, seen, found = record
    if kind == READ:
        return state if local[tablet - 1] == seen else None
    if kind == WRITE:
        if local[tablet - 1] != seen:
            return None
        return server, conflicts, with_local(local, tablet, new), fresh, dirty | {tablet}
    if kind == STABILIZE:
        stable = len(fresh) == len(local) and not dirty
        return state if stable and server == seen and conflicts == found else None
    return None


def upload(state, tablet):
    server, conflicts, local, fresh, dirty = state
    if tablet not in dirty:
        return None
    value = local[tablet - 1]
    dirty = dirty - {tablet}
    if tablet in fresh:
        if value != server:
            fresh = frozenset({tablet})
            server = value
    elif value not in (server, 0):
        conflicts = conflicts | {value}
    return server, conflicts, local, fresh, dirty


def download(state, tablet):
    server, conflicts, local, fresh, dirty = state
    if tablet in fresh or tablet in dirty:
        return None
    return server, conflicts, with_local(local, tablet, server), fresh | {tablet}, dirty


# The ordered walk.

class Spent(Exception):
    """A further point would have to be visited, and the budget is spent."""


class TooDeep(Exception):
    """A further point would be longer than any sequence can be."""


class Walk:
    def __init__(self, n, trace, budget):
        self.n, self.trace, self.budget = n, trace, budget
        self.points, self.events, self.longest = 0, [], needed(n, trace) // 2

    def children(self, state, used):
        """The events to try, in their order, each with the state after it, or None, and how far the trace is used then."""
        record = self.trace[used]
        yield (record[0], record[1]), observed(state, record), used + 1
        for tablet in range(1, self.n + 1):
            yield (UP, tablet), upload(state, tablet), used
        for tablet in range(1, self.n + 1):
            yield (DOWN, tablet), download(state, tablet), used

    def visit(self, state, used):
        """Whether there is an end at this point or below it. At the first end the events are left as they are."""
        if self.points == self.budget:
            raise Spent
        if len(self.events) > self.longest:
            raise TooDeep
        self.points += 1
        if used == len(self.trace):
            return True
        for event, after, next_used in self.children(state, used):
            if after is not None:
                self.events.append(event)
                if self.visit(after, next_used):
                    return True
                self.events.pop()
        return False


def needed(n, trace):
    """The room that a trace needs, in bytes."""
    return 2 * (len(trace) + n * sum(record[0] == WRITE for record in trace))


def explain_trace(n, trace, budget, room):
    if room < needed(n, trace):
        return REFUSED + 9, 0, 0, b''
    walk = Walk(n, trace, budget)
    try:
        found = walk.visit(first_state(n), 0)
    except Spent:
        return UNDECIDED, budget, 0, b''
    except TooDeep:
        return REFUSED + 10, 0, 0, b''
    if found:
        return EXPLAINED, walk.points, 0, b''.join(map(bytes, walk.events))
    return UNEXPLAINED, walk.points, 0, b''


# The trace file.

def packed_record(record):
    kind, tablet, new, seen, found = record
    return bytes([kind, tablet, new, seen]) + sum(1 << value for value in found).to_bytes(8, 'little')


def file_of(n, traces):
    """The file of these traces, with the smallest number of values that fits."""
    values = 1 + max([0] + [value for trace in traces for record in trace for value in (record[2], record[3], *record[4])])
    contents, at = b'', 4 + 4 * len(traces)
    for trace in traces:
        contents += at.to_bytes(2, 'little') + len(trace).to_bytes(2, 'little')
        at += 12 * len(trace)
    bodies = b''.join(packed_record(record) for trace in traces for record in trace)
    return bytes([1, n, values, len(traces)]) + contents + bodies


def good_record(n, v, raw):
    kind, tablet, new, seen = raw[:4]
    found = int.from_bytes(raw[4:], 'little')
    if kind == READ:
        return 1 <= tablet <= n and new == 0 and seen < v and found == 0
    if kind == WRITE:
        return 1 <= tablet <= n and new < v and seen < v and found == 0
    if kind == STABILIZE:
        return tablet == 0 and new == 0 and seen < v and found % 2 == 0 and found < 1 << v
    return kind == FAILED and not any(raw[1:])


def refusal_of_contents(file):
    """The place of a refusal 6, or None; and the starts and counts of the bodies."""
    k, bodies = file[3], []
    at = 4 + 4 * k
    if len(file) < at:
        return len(file), bodies
    for entry in range(4, 4 + 4 * k, 4):
        offset = int.from_bytes(file[entry:entry + 2], 'little')
        count = int.from_bytes(file[entry + 2:entry + 4], 'little')
        if offset != at or count > 256 or at + 12 * count > len(file):
            return entry, bodies
        bodies.append((at, count))
        at += 12 * count
    return (at if at < len(file) else None), bodies


def refusal_of_file(file, trace):
    """The number and place of the first refusal of 1 to 8, or None."""
    if not 4 <= len(file) <= 65535:
        return 1, 0
    edition, n, v, k = file[:4]
    if edition != 1:
        return 2, 0
    if not 1 <= n <= 8:
        return 3, 1
    if not 1 <= v <= 64:
        return 4, 2
    if not 1 <= k <= 16:
        return 5, 3
    place, _ = refusal_of_contents(file)
    if place is not None:
        return 6, place
    for at in range(4 + 4 * k, len(file), 12):
        if not good_record(n, v, file[at:at + 12]):
            return 7, at
    return None if 1 <= trace <= k else (8, 0)


def trace_of(file, trace):
    """The records of a trace of a good file."""
    start, count = refusal_of_contents(file)[1][trace - 1]
    trace = []
    for at in range(start, start + 12 * count, 12):
        found = int.from_bytes(file[at + 4:at + 12], 'little')
        trace.append((*file[at:at + 4], frozenset(value for value in range(64) if found >> value & 1)))
    return trace


def explain_file(file, trace, budget, room):
    refusal = refusal_of_file(file, trace)
    if refusal:
        return REFUSED + refusal[0], 0, refusal[1], b''
    return explain_trace(file[1], trace_of(file, trace), budget, room)


# The cases.

def case(group, name, file, trace, budget, room, answer):
    """Adds a case, if the walk above agrees with what it expects."""
    assert explain_file(file, trace, budget, room) == answer, (group, name, answer)
    status, points, place, events = answer
    parts = [name.encode('ascii'), file, events]
    starts = [56 + sum(map(len, parts[:i])) for i in range(4)]
    head = [starts[3]]
    for start, part in zip(starts, parts):
        head += [start, len(part)]
    head += [status, points, place, trace, budget, room, len(events) // 2]
    cases.append((group, name, b''.join(x.to_bytes(4, 'little') for x in head) + b''.join(parts)))


def refused(group, name, file, trace, number, place, budget=MANY, room=100):
    case(group, name, file, trace, budget, room, (REFUSED + number, 0, place, b''))


def W(tablet, new, seen):
    return WRITE, tablet, new, seen, frozenset()


def R(tablet, seen):
    return READ, tablet, 0, seen, frozenset()


def S(seen, *found):
    return STABILIZE, 0, 0, seen, frozenset(found)


SF = FAILED, 0, 0, 0, frozenset()

# The specification's evenings worked by hand: the name, n, the trace, the status, the points, and for an explained one the
# number of events, with their bytes where they are printed.
PRINTED = [
    ('A', 2, [], EXPLAINED, 1, 0, None),
    ('B', 1, [R(1, 0)], EXPLAINED, 2, 1, None),
    ('C', 1, [R(1, 1)], UNEXPLAINED, 1, 0, None),
    ('D', 1, [W(1, 1, 0), S(1)], EXPLAINED, 4, 3, bytes([WRITE, 1, UP, 1, STABILIZE, 0])),
    ('E', 1, [SF], UNEXPLAINED, 1, 0, None),
    ('F', 2, [W(1, 1, 0), W(2, 2, 1), R(1, 2), W(2, 3, 2), S(3)], EXPLAINED, 12, 11, None),
    ('G', 2, [W(2, 2, 0), W(1, 1, 2), R(1, 1), SF], UNEXPLAINED, 13, 0, None),
    ('H', 1, [W(1, 2, 0), W(1, 0, 2), R(1, 2)], UNEXPLAINED, 7, 0, None),
    ('I', 2, [W(1, 1, 0), W(2, 2, 0), S(1, 2)], EXPLAINED, 7, 6,
     bytes([WRITE, 1, WRITE, 2, UP, 1, UP, 2, DOWN, 2, STABILIZE, 0])),
    ('J', 2, [W(1, 1, 0), W(2, 1, 0), S(1)], EXPLAINED, 7, 6, None),
    ('K', 2, [W(1, 1, 0), R(2, 1), W(2, 2, 1), W(1, 0, 1), S(0, 2)], EXPLAINED, 11, 10, None),
    # Six more, worked by hand too. They catch wrong models that A to K let pass.
    ('a write of the same value has to be uploaded', 1, [W(1, 0, 0), S(0)], EXPLAINED, 4, 3, None),
    ('an upload of the same value makes nobody stale', 2, [W(1, 0, 0), R(1, 1)], UNEXPLAINED, 3, 0, None),
    ('a dirty tablet takes no download', 2, [W(1, 0, 0), W(2, 1, 0), R(1, 2)], UNEXPLAINED, 13, 0, None),
    ('an upload between two writes', 2, [W(1, 1, 0), W(1, 0, 1), R(2, 1)], EXPLAINED, 10, 5, None),
    ('the missing sheet never conflicts', 2, [W(1, 1, 0), W(2, 0, 0), S(1)], EXPLAINED, 7, 6, None),
    ('the conflict sets have to be equal', 2, [W(1, 1, 0), W(2, 2, 0), S(1)], UNEXPLAINED, 14, 0, None),
]


def printed_answer(n, trace, status, points, count, events):
    """What the table prints; the events that it does not print are the walk's."""
    walked = explain_trace(n, trace, MANY, needed(n, trace))[3]
    assert len(walked) == 2 * count and events in (None, walked)
    return status, points, 0, walked


def budget_edges(group, name, file, trace, room, answer):
    """With one point less than there are the budget is spent; with as many, or more, the answer stays."""
    points = answer[1]
    for budget in sorted({0, points - 1}):
        case(group, f'{name}, budget {budget}', file, trace, budget, room, (UNDECIDED, budget, 0, b''))
    for budget in (points, points + 1, MOST):
        case(group, f'{name}, budget {budget}', file, trace, budget, room, answer)


def room_edges(group, name, file, n, trace, answer):
    """With one byte less than is needed there is no room, whatever the budget; with more, the rest stays."""
    need = needed(n, trace)
    for room in sorted({0, need - 1} & set(range(need))):
        for budget in (0, MANY):
            refused(group, f'{name}, room {room}, budget {budget}', file, 1, 9, 0, budget, room)
    for room in (need + 1, 4608, 8192):
        case(group, f'{name}, room {room}', file, 1, MANY, room, answer)


def worked():
    for name, n, trace, *printed in PRINTED:
        file, answer = file_of(n, [trace]), printed_answer(n, trace, *printed)
        case('worked', name, file, 1, MANY, needed(n, trace), answer)
        budget_edges('worked', name, file, 1, needed(n, trace), answer)
        room_edges('worked', name, file, n, trace, answer)


def worked_together():
    """All evenings on one tablet in one file, and all on two in another; each asked, and then traces that are not there."""
    for n in (1, 2):
        rows = [row for row in PRINTED if row[1] == n]
        file = file_of(n, [row[2] for row in rows])
        for t, (name, _, trace, *printed) in enumerate(rows, 1):
            answer = printed_answer(n, trace, *printed)
            case('worked', f'{name}, as trace {t} of {len(rows)}', file, t, MANY, needed(n, trace), answer)
            budget_edges('worked', f'{name}, as trace {t} of {len(rows)}', file, t, 100, answer)
        for t in (0, len(rows) + 1, 256, 257, 65537, MOST):
            refused('worked', f'trace {t} of {len(rows)}', file, t, 8, 0)


def worked_refusals():
    """The file of D, damaged; and which refusal comes first."""
    d = bytes.fromhex('0101020108000200' '020101000000000000000000' '030000010000000000000000')
    assert d == file_of(1, [PRINTED[3][2]])
    bad = d[:23] + b'\2' + d[24:]
    for name, file, trace, number, place in [
            ('no file', b'', 1, 1, 0), ('D with 3 bytes', d[:3], 1, 1, 0), ('D in edition 2', b'\2' + d[1:], 1, 2, 0),
            ('D with no tablets', d[:1] + b'\0' + d[2:], 1, 3, 1), ('D with 9 tablets', d[:1] + b'\11' + d[2:], 1, 3, 1),
            ('D with no values', d[:2] + b'\0' + d[3:], 1, 4, 2), ('D with 65 values', d[:2] + b'\101' + d[3:], 1, 4, 2),
            ('D with no bodies', d[:3] + b'\0' + d[4:], 1, 5, 3), ('D with 17 bodies', d[:3] + b'\21' + d[4:], 1, 5, 3),
            ('D with 6 bytes', d[:6], 1, 6, 6), ('D with 31 bytes', d[:31], 1, 6, 4),
            ('D with 33 bytes', d + b'\0', 1, 6, 32),
            ('D with seen = 2 in the second record', bad, 1, 7, 20), ('the same, trace 0', bad, 0, 7, 20),
            ('D, trace 0', d, 0, 8, 0), ('D, trace 2', d, 2, 8, 0), ('D, trace 257', d, 257, 8, 0)]:
        for budget, room in (MANY, 100), (0, 100), (MANY, 0), (0, 0):
            refused('worked', f'{name}, budget {budget}, room {room}', file, trace, number, place, budget, room)


# The papers' example tests. Document 000 is 'Mysteries of Dropbox', document 003 the slides 'A Deep Specification for
# Dropbox'. a, b and c are 1, 2 and 3, and the missing file is 0. What each gives is worked out by the walk above, and not
# taken from the paper: not every explanation printed there is complete, and its rule for uploads changes on the way. The
# slides set the events of two clients side by side; where that loses their order, the order is that of document 000.
# ownCloud's deleted directories are left out: they are no single file.
PAPERS = [
    ('000 III: two blind writes, and the first wins', 2, [W(1, 1, 0), W(2, 2, 0), R(2, 1)]),
    ('000 III: the same, stable with the second in conflict', 2, [W(1, 1, 0), W(2, 2, 0), R(2, 1), S(1, 2)]),
    ('000 III: the same, stable with the second lost', 2, [W(1, 1, 0), W(2, 2, 0), R(2, 1), S(1)]),
    ('000 III: the simple test, each write seen by the next', 2, [W(1, 1, 0), W(2, 2, 1), R(1, 2), W(2, 3, 2), S(3)]),
    ('000 III: the same, in the order of the printed explanation', 2,
     [W(1, 1, 0), W(2, 2, 1), W(2, 3, 2), R(1, 2), S(3)]),
    ('000 III: the simple test, the second client unaware', 2, [W(1, 1, 0), W(2, 2, 0), R(1, 1), W(2, 3, 2), S(1, 3)]),
    ('000 III: the simple test, with a conflict that cannot be', 2,
     [W(1, 1, 0), W(2, 2, 1), R(1, 2), W(2, 3, 2), S(3, 1)]),
    ('000 IV: the same value from both', 2, [W(1, 1, 0), W(2, 1, 0), S(1)]),
    ('000 IV: a deletion against a late write, three clients', 3,
     [W(1, 1, 0), R(2, 1), W(1, 0, 1), R(2, 0), W(3, 2, 1), R(1, 2)]),
    ('000 V: a new file is gone for a while', 2, [W(1, 1, 0), W(1, 0, 1), W(2, 2, 1), W(1, 3, 0), R(1, 0)]),
    ('000 V: a deleted file is back', 1, [W(1, 2, 0), W(1, 0, 2), R(1, 2)]),
    ('000 V: a deleted file is back, with two more clients that look on', 3, [W(1, 2, 0), W(1, 0, 2), R(1, 2)]),
    ('000 V: a file made here and deleted there is back', 2, [W(2, 2, 0), W(1, 0, 2), R(1, 0), S(2)]),
    ('000 V: a write is not passed on', 2, [W(2, 2, 0), W(1, 1, 2), R(1, 1), SF]),
    ('000 V: the same, and the other client writes over it, as the text tells', 2,
     [W(2, 2, 0), W(1, 1, 2), R(1, 1), W(2, 3, 2), R(1, 3), S(3)]),
    ('000 V: ownCloud loses a write', 2, [W(1, 1, 0), W(2, 2, 1), W(1, 3, 1), S(2)]),
    ('000 V: the same, with the write in conflict', 2, [W(1, 1, 0), W(2, 2, 1), W(1, 3, 1), S(2, 3)]),
    ('000 V: ownCloud loses a write, and the other client writes over it, as the text tells', 2,
     [W(1, 1, 0), W(2, 2, 1), W(1, 3, 1), W(2, 1, 2), S(1)]),
    ('000 VII: three writes in a row', 2, [W(1, 1, 0), W(1, 2, 1), W(2, 3, 2)]),
    ('000 VII: two writes read in the wrong order', 2, [W(1, 1, 0), W(1, 2, 1), R(2, 2), R(2, 1)]),
    ('003: the test on the slides', 2, [W(1, 1, 0), W(2, 2, 1), R(1, 2), W(2, 3, 2), S(3)]),
    ('003: the same, in the order of the explanation on the slides', 2,
     [W(1, 1, 0), W(2, 2, 1), W(2, 3, 2), R(1, 2), S(3)]),
    ('003, surprises: a new file is gone for a while', 2, [W(1, 1, 0), W(1, 0, 1), W(2, 2, 1), W(1, 3, 0), R(1, 0)]),
    ('003, surprises: a deleted file is back, the other client idle', 2, [W(1, 2, 0), W(1, 0, 2), R(1, 2)]),
    ('003, surprises: a write is not passed on', 2, [W(2, 2, 0), W(1, 1, 2), R(1, 1), SF]),
]

# What the specification says of four of them: cases F, J, G and H.
SAID = {
    '000 III: the simple test, each write seen by the next': 'F',
    '000 IV: the same value from both': 'J',
    '000 V: a write is not passed on': 'G',
    '000 V: a deleted file is back': 'H',
}


def papers():
    for name, n, trace in PAPERS:
        room = needed(n, trace)
        answer = explain_trace(n, trace, MANY, room)
        assert answer[0] in (EXPLAINED, UNEXPLAINED), name
        file = file_of(n, [trace])
        case('papers', name, file, 1, MANY, room, answer)
        budget_edges('papers', name, file, 1, room, answer)
    rows = {row[0]: row for row in PRINTED}
    for name, n, trace in PAPERS:
        assert name not in SAID or rows[SAID[name]][1:3] == (n, trace), name


def papers_together():
    """The same once more, several in one file: the first 16 on two tablets, and those on three."""
    for n in (2, 3):
        rows = [row for row in PAPERS if row[1] == n][:16]
        file = file_of(n, [trace for _, _, trace in rows])
        for t, (name, _, trace) in enumerate(rows, 1):
            answer = explain_trace(n, trace, MANY, needed(n, trace))
            case('papers', f'{name}, as trace {t} of {len(rows)}', file, t, MANY, 100, answer)


def calls():
    """The calls from outside. Where the result area has not 12 bytes the call is about the area alone, and is left out."""
    skipped = 0
    with open(os.path.join(HERE, 'calls.jsonl'), encoding='ascii') as lines:
        for i, line in enumerate(lines, 1):
            x = json.loads(line)
            if x['area_len'] != 12:
                assert (x['status'], x['area'], x['events']) == (REFUSED + 9, None, ''), i
                skipped += 1
                continue
            area, events = bytes.fromhex(x['area']), bytes.fromhex(x['events'])
            points, count, place = (int.from_bytes(area[at:at + 4], 'little') for at in (0, 4, 8))
            assert len(events) == 2 * count, i
            case('calls', f'calls.jsonl line {i}', bytes.fromhex(x['file']), x['trace'], x['budget'], x['room'],
                 (x['status'], points, place, events))
    return skipped


def deep():
    """One of the longest sequences: 8 tablets and 256 writes, at tablets 7 and 8 by turns, of the values 1 to 6 by turns,
    each of which saw the value before. Known from outside: explained, 2,297 points, 2,296 events. The room is the largest
    that any trace needs."""
    trace = [W(7 + i % 2, 1 + i % 6, 1 + (i - 1) % 6 if i else 0) for i in range(256)]
    file = file_of(8, [trace])
    answer = explain_trace(8, trace, 3000000, 4608)
    assert (needed(8, trace), answer[:3], len(answer[3])) == (4608, (EXPLAINED, 2297, 0), 2 * 2296)
    case('deep', 'deep', file, 1, 3000000, 4608, answer)
    budget_edges('deep', 'deep', file, 1, 4608, answer)
    room_edges('deep', 'deep', file, 8, trace, answer)


def main():
    sys.setrecursionlimit(10000)
    worked()
    worked_together()
    worked_refusals()
    papers()
    papers_together()
    skipped = calls()
    deep()
    names = [(group, name) for group, name, _ in cases]
    assert len(set(names)) == len(names), 'two cases have the same name'
    os.makedirs(DATA, exist_ok=True)
    for group in GROUPS:
        packed = [packed for g, _, packed in cases if g == group]
        with open(os.path.join(DATA, group), 'wb') as out:
            out.write(b''.join(packed))
        print(f'{group}: {len(packed)} cases')
    print(f'left out: {skipped} calls about the result area alone')


if __name__ == '__main__':
    main()
