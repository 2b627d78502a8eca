#!/usr/bin/env python3
"""Writes the files of crates/printed/data, one for each group: what the program `printed` has written, and the text that is
to come out.

What a case expects is never taken from a run of the code under test. The cases in this file are worked out by hand from the
specification. Those of program.jsonl, beside this file, are copied as they are: they were made by an implementation that was
written from the specification alone and shares nothing with this repository.

It takes no arguments, and prints how many cases there are in each group. crates/printed/stdout says the same numbers.

A case is a head of 14 numbers, 4 bytes each, least byte first, and then its parts: its name, the bytes given, the text
expected. crates/printed/src/case.rt says where each number stands.
"""
import json
import os

HERE = os.path.dirname(os.path.abspath(__file__))
DATA = os.path.join(HERE, '..', 'crates', 'printed', 'data')
GROUPS = ['worked', 'copied']
FILE, ANSWER, EVENTS, REFUSAL, RECORD, TRACE = 1, 2, 3, 4, 5, 6
EXPLAINED, UNEXPLAINED, UNDECIDED, REFUSED = 0, 1, 2, 10
READ, WRITE, STABILIZE, FAILED = 1, 2, 3, 4

# The room for a whole text, for a line, for a line of a record, and the largest number of 32 bits.
TEXT_ROOM, LINE_ROOM, RECORD_ROOM, MOST = 16 * (80 + 3 * 2304 + 1), 80, 256, 4294967295
cases = []


def case(group, name, kind, given, text, room, trace=0, status=0, points=0, events=0, place=0):
    parts = [name.encode('ascii'), given, text.encode('ascii')]
    starts = [56 + sum(map(len, parts[:i])) for i in range(4)]
    head = [starts[3]]
    for start, part in zip(starts, parts):
        head += [start, len(part)]
    head += [kind, room, trace, status, points, events, place]
    cases.append((group, b''.join(x.to_bytes(4, 'little') for x in head) + b''.join(parts)))


def prints(name, file, text, room=TEXT_ROOM, group='worked'):
    """For a file this text is written."""
    case(group, name, FILE, file, text, room)


def answers(name, text, trace, status, points=0, events=0, place=0, room=LINE_ROOM):
    """For an answer this line is written."""
    case('worked', name, ANSWER, b'', text, room, trace, status, points, events, place)


def refuses(name, text, number, place=0, room=LINE_ROOM):
    """For a refused file this line is written."""
    case('worked', name, REFUSAL, b'', text, room, status=REFUSED + number, place=place)


def lists(name, text, events, room=None):
    """For these events, of two bytes each, this line is written."""
    case('worked', name, EVENTS, bytes(events), text, 3 * (len(events) // 2) + 1 if room is None else room)


def notes(name, text, given, room=RECORD_ROOM):
    """For a record this line is written."""
    case('worked', name, RECORD, given, text, room)


def opens(name, text, trace, room=LINE_ROOM):
    """For a trace the listing opens with this line."""
    case('worked', name, TRACE, b'', text, room, trace)


def record(kind, tablet, new, seen, found=0):
    return bytes([kind, tablet, new, seen]) + found.to_bytes(8, 'little')


def W(tablet, new, seen):
    return record(WRITE, tablet, new, seen)


def R(tablet, seen):
    return record(READ, tablet, 0, seen)


def S(seen, *found):
    return record(STABILIZE, 0, 0, seen, sum(1 << value for value in found))


SF = record(FAILED, 0, 0, 0)


def file_of(n, v, *traces):
    """The good file of these traces, laid out as docs/FORMAT.md says."""
    contents, at = b'', 4 + 4 * len(traces)
    for trace in traces:
        contents += at.to_bytes(2, 'little') + len(trace).to_bytes(2, 'little')
        at += 12 * len(trace)
    return bytes([1, n, v, len(traces)]) + contents + b''.join(b''.join(trace) for trace in traces)


# Case D of the specification, as printed there, and what is printed for it.
D = bytes.fromhex('0101020108000200' '020101000000000000000000' '030000010000000000000000')
D_TEXT = 'trace 1 explained points 4 events 3\nW1 U1 S\n'
D_TRACE = [W(1, 1, 0), S(1)]
assert file_of(1, 2, D_TRACE) == D

# ---- whole texts

prints('the file of D', D, D_TEXT)
prints('the file of D, with more room', D, D_TEXT, room=131072)
prints('the file of D, with a byte of room too little', D, '', room=TEXT_ROOM - 1)
prints('the file of D, with room for its own text only', D, '', room=len(D_TEXT))
prints('the file of D, with no room', D, '', room=0)
prints('D with 31 bytes', D[:31], 'refused 6 at 4\n')
prints('D with 33 bytes', D + b'\0', 'refused 6 at 32\n')
prints('D with seen = 2 in the second record', D[:23] + b'\2' + D[24:], 'refused 7 at 20\n')
prints('a refused file, with a byte of room too little', D[:31], '', room=TEXT_ROOM - 1)
prints('no bytes', b'', 'refused 1 at 0\n')
prints('65,536 bytes', bytes(65536), 'refused 1 at 0\n')
prints('65,535 bytes', bytes(65535), 'refused 2 at 0\n')
prints('no tablets', bytes([1, 0, 2, 1]), 'refused 3 at 1\n')
prints('no values', bytes([1, 1, 0, 1]), 'refused 4 at 2\n')
prints('no bodies', bytes([1, 1, 2, 0]), 'refused 5 at 3\n')
prints('the file of A', file_of(2, 4, []), 'trace 1 explained points 1 events 0\n\n')
prints('the file of B', file_of(1, 4, [R(1, 0)]), 'trace 1 explained points 2 events 1\nR1\n')
prints('the file of C', file_of(1, 4, [R(1, 1)]), 'trace 1 unexplained points 1\n')
prints('the file of E', file_of(1, 4, [SF]), 'trace 1 unexplained points 1\n')
prints('the file of G', file_of(2, 4, [W(2, 2, 0), W(1, 1, 2), R(1, 1), SF]), 'trace 1 unexplained points 13\n')
prints('the file of H', file_of(1, 4, [W(1, 2, 0), W(1, 0, 2), R(1, 2)]), 'trace 1 unexplained points 7\n')
prints('the file of I', file_of(2, 4, [W(1, 1, 0), W(2, 2, 0), S(1, 2)]), 'trace 1 explained points 7 events 6\nW1 W2 U1 U2 D2 S\n')
prints('A, D, C and A again in one file', file_of(1, 4, [], D_TRACE, [R(1, 1)], []),
       'trace 1 explained points 1 events 0\n\n'
       'trace 2 explained points 4 events 3\nW1 U1 S\n'
       'trace 3 unexplained points 1\n'
       'trace 4 explained points 1 events 0\n\n')
prints('D sixteen times', file_of(1, 2, *[D_TRACE] * 16),
       ''.join(f'trace {t} explained points 4 events 3\nW1 U1 S\n' for t in range(1, 17)))

# Eight tablets write in turn, and a STABILIZE fails. Once tablet 1 has uploaded, the seven others upload in any order and
# then download in any order: 5,040 times 5,040 sequences and none is an end, far more than the budget.
MANY_TRACE = [W(t, t, 0) for t in range(1, 9)] + [SF]
prints('an evening beyond the budget', file_of(8, 9, MANY_TRACE), 'trace 1 undecided points 1000000\n')
prints('an evening beyond the budget, and then another', file_of(8, 9, MANY_TRACE, [R(8, 0)]),
       'trace 1 undecided points 1000000\ntrace 2 explained points 2 events 1\nR8\n')

# ---- the line of an answer

answers('explained', 'trace 1 explained points 4 events 3\n', 1, EXPLAINED, points=4, events=3)
answers('unexplained', 'trace 1 unexplained points 13\n', 1, UNEXPLAINED, points=13)
answers('undecided', 'trace 1 undecided points 1000000\n', 1, UNDECIDED, points=1000000)
answers('stopped by 10', 'trace 1 refused 10 at 0\n', 1, REFUSED + 10)
answers('too little room for the explanation', 'trace 2 refused 9 at 0\n', 2, REFUSED + 9)
answers('no such trace', 'trace 17 refused 8 at 0\n', 17, REFUSED + 8)
answers('a refused file', 'trace 3 refused 7 at 20\n', 3, REFUSED + 7, place=20)
answers('the largest numbers', f'trace {MOST} explained points {MOST} events {MOST}\n', MOST, EXPLAINED, points=MOST, events=MOST)
answers('the largest place', f'trace {MOST} refused 6 at {MOST}\n', MOST, REFUSED + 6, place=MOST)
answers('nothing but 0', 'trace 0 explained points 0 events 0\n', 0, EXPLAINED)
for digits in range(1, 10):
    answers(f'9 and 10, {digits} digits', f'trace {10 ** digits - 1} explained points {10 ** digits} events {10 ** digits + 1}\n',
            10 ** digits - 1, EXPLAINED, points=10 ** digits, events=10 ** digits + 1)
answers('an answer with more room', 'trace 1 unexplained points 13\n', 1, UNEXPLAINED, points=13, room=1000)
answers('an answer with a byte of room too little', '', 1, UNEXPLAINED, points=13, room=LINE_ROOM - 1)
answers('an answer with no room', '', 1, EXPLAINED, points=4, events=3, room=0)

# ---- the line of a refused file

for number, place in [(1, 0), (2, 0), (3, 1), (4, 2), (5, 3), (6, 4), (6, 65535), (7, 20), (7, MOST), (8, 0)]:
    refuses(f'refusal {number} at {place}', f'refused {number} at {place}\n', number, place)
refuses('a refusal with more room', 'refused 7 at 20\n', 7, 20, room=81)
refuses('a refusal with a byte of room too little', '', 7, 20, room=LINE_ROOM - 1)

# ---- the line of events

lists('the events of D', 'W1 U1 S\n', [2, 1, 5, 1, 3, 0])
lists('the events of I', 'W1 W2 U1 U2 D2 S\n', [2, 1, 2, 2, 5, 1, 5, 2, 6, 2, 3, 0])
lists('no events', '\n', [])
lists('one event', 'R8\n', [1, 8])
lists('a failed STABILIZE', 'SF S\n', [4, 0, 3, 0])
lists('kinds that are not in the table', '?1 ?2 ?0\n', [0, 1, 7, 2, 255, 0])
lists('tablets that are not there', 'R0 W9 U0 D5\n', [1, 0, 2, 9, 5, 10, 6, 255])
lists('a byte without its second', 'W1\n', [2, 1, 5])
lists('a byte alone', '\n', [2])
lists('as many events as an evening can have', ' '.join(['U8'] * 2304) + '\n', [5, 8] * 2304)
lists('events with more room', 'W1 U1 S\n', [2, 1, 5, 1, 3, 0], room=100)
lists('events with a byte of room too little', '', [2, 1, 5, 1, 3, 0], room=9)
lists('no events, and no room', '', [], room=0)

# ---- the lines of a listing

notes('a read', 'R2 1\n', R(2, 1))
notes('a write', 'W1 2<1\n', W(1, 2, 1))
notes('a write of the highest values', 'W8 63<62\n', W(8, 63, 62))
notes('no conflicts', 'S(1,{})\n', S(1))
notes('one conflict', 'S(0,{63})\n', S(0, 63))
notes('two conflicts, rising', 'S(3,{1,2})\n', S(3, 2, 1))
notes('conflicts with one digit and with two', 'S(12,{9,10,11})\n', S(12, 9, 10, 11))
notes('all conflicts', 'S(0,{' + ','.join(str(value) for value in range(64)) + '})\n', S(0, *range(64)))
notes('a STABILIZE that failed', 'SF\n', SF)
notes('numbers that no good file has', 'W255 255<255\n', W(255, 255, 255))
notes('too few bytes for a record', 'SF\n', R(2, 1)[:11])
notes('a record with more room', 'R2 1\n', R(2, 1), room=1000)
notes('a record with a byte of room too little', '', R(2, 1), room=RECORD_ROOM - 1)
opens('trace 1', 'trace 1\n', 1)
opens('trace 16', 'trace 16\n', 16)
opens('the largest trace number', f'trace {MOST}\n', MOST)
opens('a listing with a byte of room too little', '', 1, room=LINE_ROOM - 1)

# ---- the copied cases

with open(os.path.join(HERE, 'program.jsonl')) as lines:
    for number, line in enumerate(lines, 1):
        copied = json.loads(line)
        prints(f'line {number}', bytes.fromhex(copied['file']), copied['stdout'], group='copied')

for group in GROUPS:
    packed = [bytes_of for name, bytes_of in cases if name == group]
    with open(os.path.join(DATA, group), 'wb') as out:
        out.write(b''.join(packed))
    print(f'{group}: {len(packed)} cases')
