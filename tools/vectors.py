#!/usr/bin/env python3
"""Writes crates/vectors/data/cases: what the program `vectors` runs through the reader and the writer of trace files.

The cases in this file are worked out by hand from docs/FORMAT.md. What a case expects, a refusal's number and place or the
bytes that come out, is never taken from a run of the code under test. The cases of writer.jsonl, beside this file, are
copied as they are: they were made by an implementation that was written from the specification alone and shares nothing
with this repository.

It takes no arguments, and prints how many cases there are of each kind. crates/vectors/stdout says the same numbers.

A case is a head of 15 numbers, 4 bytes each, least byte first, and then its parts: its name, the bytes given, the bytes
expected, the counts. crates/vectors/src/case.rt says where each number stands.
"""
import json
import os

HERE = os.path.dirname(os.path.abspath(__file__))
CASES = os.path.join(HERE, '..', 'crates', 'vectors', 'data', 'cases')
READER, WRITER = 1, 2
cases = []


def case(kind, name, given, expected, refusal, place, number, v=0, counts=(), buffer=0):
    """Adds a case. The number is the trace for the reader, and n for the writer."""
    parts = [name.encode(), given, expected, b''.join(count.to_bytes(4, 'little') for count in counts)]
    starts = [60 + sum(map(len, parts[:i])) for i in range(5)]
    head = [starts[4], kind]
    for start, part in zip(starts, parts):
        head += [start, len(part)]
    head += [refusal, place, number, v, buffer]
    cases.append((kind, name, b''.join(x.to_bytes(4, 'little') for x in head) + b''.join(parts)))


def handed(name, file, trace, body):
    """The reader finds the file good, and hands back this body."""
    case(READER, name, file, body, 0, 0, trace)


def refused(name, file, refusal, place, trace=1):
    """The reader refuses the file, or the trace number, and hands back no byte."""
    case(READER, name, file, b'', refusal, place, trace)


def written(name, n, v, counts, records, buffer, file):
    """The writer puts this file into a buffer of so many bytes, and leaves the bytes after it."""
    case(WRITER, name, records, file, 0, 0, n, v, counts, buffer)


def unwritten(name, n, v, counts, records, buffer, refusal, place=0):
    """The writer refuses, and leaves the whole buffer."""
    case(WRITER, name, records, b'', refusal, place, n, v, counts, buffer)


def record(kind, tablet, new, seen, found=0):
    return bytes([kind, tablet, new, seen]) + found.to_bytes(8, 'little')


def entry(offset, count):
    return offset.to_bytes(2, 'little') + count.to_bytes(2, 'little')


def file_of(n, v, bodies):
    """The good file of these bodies, laid out as docs/FORMAT.md says."""
    contents, at = b'', 4 + 4 * len(bodies)
    for body in bodies:
        contents += entry(at, len(body) // 12)
        at += len(body)
    return bytes([1, n, v, len(bodies)]) + contents + b''.join(bodies)


def changed(file, at, *new):
    """The file with other bytes from a place on."""
    return file[:at] + bytes(new) + file[at + len(new):]


# Case D of the specification, as printed there.
D = bytes.fromhex('0101020108000200' '020101000000000000000000' '030000010000000000000000')
D_RECORDS = D[8:]

# A record that is good for every n and v: a READ at tablet 1 that saw value 0.
PLAIN = record(1, 1, 0, 0)

# Two bodies: bytes 12 to 23, and 24 to 47. The whole file has 48 bytes.
ONE, TWO = record(2, 2, 2, 1), record(1, 1, 0, 2) + record(3, 0, 0, 2, 1 << 1)
PAIR = bytes([1, 2, 3, 2]) + entry(12, 1) + entry(24, 2) + ONE + TWO

# Two bodies, of 84 records and of 1. The second starts at 12 + 12 * 84 = 1,020, or fc 03 in hex.
LONG = bytes.fromhex('01010102' '0c005400' 'fc030100') + PLAIN * 85

# Sixteen bodies of 1, 2, 0, 1, 2, 0, .. records: 16 records and 68 bytes before them, 260 bytes in all.
SIXTEEN_BODIES = [(record(1, 8, 0, t) + record(2, 1, t, 63))[:12 * (t % 3)] for t in range(1, 17)]
SIXTEEN = file_of(8, 64, SIXTEEN_BODIES)

# The largest file: 16 bodies of 256 records, 4 + 64 + 16 * 256 * 12 = 49,220 bytes. The last body starts at 46,148.
FULL_BODIES = [record(1, 1, 0, t) * 256 for t in range(16)]
FULL = file_of(1, 16, FULL_BODIES)


def reader_printed():
    """The file of D and its three damaged forms, with the refusals printed in the specification."""
    handed('D', D, 1, D_RECORDS)
    refused('D with 31 bytes', D[:31], 6, 4)
    refused('D with 33 bytes', D + b'\0', 6, 32)
    refused('D with seen = 2 in the second record', changed(D, 23, 2), 7, 20)


def reader_lengths():
    """File lengths, and where a file ends: refusal 1, and 6 by each of its rows."""
    for length in range(31):
        refusal, place = (1, 0) if length < 4 else (6, length) if length < 8 else (6, 4)
        refused(f'D with {length} bytes', D[:length], refusal, place)
    for length in range(48):
        refusal, place = (1, 0) if length < 4 else (6, length) if length < 12 else (6, 4) if length < 24 else (6, 8)
        refused(f'two bodies with {length} bytes', PAIR[:length], refusal, place)
    refused('D with a record left over', D + PLAIN, 6, 32)
    refused('two bodies with one byte left over', PAIR + b'\1', 6, 48)
    refused('no records and one byte left over', bytes([1, 1, 1, 1]) + entry(8, 0) + b'\0', 6, 8)
    refused('16 bodies with 67 bytes', SIXTEEN[:67], 6, 67)
    refused('16 bodies with 68 bytes', SIXTEEN[:68], 6, 4)
    refused('16 bodies with the last byte missing', SIXTEEN[:-1], 6, 64)
    refused('65,535 bytes, the largest file and more', FULL + bytes(65535 - len(FULL)), 6, 49220)
    refused('65,536 bytes', FULL + bytes(65536 - len(FULL)), 1, 0)
    handed('the largest file', FULL, 16, FULL_BODIES[15])


def reader_head():
    """Edition, n, v and k from both sides of each limit."""
    for edition in (0, 2, 255):
        refused(f'edition {edition}', changed(D, 0, edition), 2, 0)
    for n in (0, 9, 255):
        refused(f'n = {n}', changed(D, 1, n), 3, 1)
    for v in (0, 65, 255):
        refused(f'v = {v}', changed(D, 2, v), 4, 2)
    for k in (0, 17, 255):
        refused(f'k = {k}', changed(D, 3, k), 5, 3)
    refused('k = 0 and nothing more', bytes([1, 1, 1, 0]), 5, 3)
    refused('17 whole bodies', file_of(1, 1, [PLAIN] * 17), 5, 3)
    refused('k = 2 in the file of D', changed(D, 3, 2), 6, 4)
    refused('k = 16 in the file of D', changed(D, 3, 16), 6, 32)
    handed('n = 8', changed(D, 1, 8), 1, D_RECORDS)
    handed('v = 64', changed(D, 2, 64), 1, D_RECORDS)
    handed('v = 1', bytes([1, 1, 1, 1]) + entry(8, 1) + PLAIN, 1, PLAIN)


def reader_contents():
    """Offsets, counts and ends of bodies: the second row of refusal 6."""
    for offset in (7, 9):
        refused(f'offset {offset} for 8', changed(D, 4, offset), 6, 4)
    for offset in (0, 11, 13, 268, 65535):
        refused(f'first offset {offset} for 12', changed(PAIR, 4, *offset.to_bytes(2, 'little')), 6, 4)
    for offset in (0, 12, 23, 25, 280, 65535):
        refused(f'second offset {offset} for 24', changed(PAIR, 8, *offset.to_bytes(2, 'little')), 6, 8)
    handed('second offset 1,020', LONG, 2, PLAIN)
    refused('second offset 764 for 1,020', changed(LONG, 8, 0xfc, 2), 6, 8)
    for count, place in (0, 8), (2, 8), (3, 8), (4, 4), (256, 4), (257, 4), (65535, 4):
        refused(f'first count {count} for 1', changed(PAIR, 6, *count.to_bytes(2, 'little')), 6, place)
    for count, place in (0, 24), (1, 36), (3, 8), (256, 8), (257, 8), (258, 8), (65535, 8):
        refused(f'second count {count} for 2', changed(PAIR, 10, *count.to_bytes(2, 'little')), 6, place)
    handed('no records', bytes([1, 2, 1, 1]) + entry(8, 0), 1, b'')
    handed('255 records', bytes([1, 1, 1, 1]) + entry(8, 255) + PLAIN * 255, 1, PLAIN * 255)
    handed('256 records', bytes([1, 1, 1, 1]) + entry(8, 256) + PLAIN * 256, 1, PLAIN * 256)
    refused('257 records', bytes([1, 1, 1, 1]) + entry(8, 257) + PLAIN * 257, 6, 4)
    refused('two entries in the wrong order', PAIR[:4] + PAIR[8:12] + PAIR[4:8] + PAIR[12:], 6, 4)
    refused('the second body before the first', bytes([1, 1, 1, 2]) + entry(24, 1) + entry(12, 1) + PLAIN * 2, 6, 4)
    refused('the same body twice', bytes([1, 1, 1, 2]) + entry(12, 1) + entry(12, 1) + PLAIN, 6, 8)
    refused('a gap before the first body', bytes([1, 1, 1, 1]) + entry(9, 1) + b'\0' + PLAIN, 6, 4)
    refused('a gap between bodies', bytes([1, 1, 1, 2]) + entry(12, 1) + entry(25, 1) + PLAIN + b'\0' + PLAIN, 6, 8)
    refused('last of 16 offsets one more', changed(SIXTEEN, 64, SIXTEEN[64] + 1), 6, 64)


def reader_traces():
    """Trace numbers, and a good file with 16 bodies, each asked."""
    for trace in (0, 2, 257, 65537, 4294967295):
        refused(f'trace {trace} of 1', D, 8, 0, trace)
    handed('trace 1 of 2', PAIR, 1, ONE)
    handed('trace 2 of 2', PAIR, 2, TWO)
    for trace in (0, 3, 257, 258, 4294967295):
        refused(f'trace {trace} of 2', PAIR, 8, 0, trace)
    for trace in range(1, 17):
        handed(f'trace {trace} of 16', SIXTEEN, trace, SIXTEEN_BODIES[trace - 1])
    for trace in (0, 17, 257, 272, 4294967295):
        refused(f'trace {trace} of 16', SIXTEEN, 8, 0, trace)


# The table of records at n = 3 and v = 5, each column from both sides; the limits of n and v. A row is: the name, n, v, and
# the record.
GOOD_RECORDS = [
    ('READ at tablet 1', 3, 5, record(1, 1, 0, 4)),
    ('READ at tablet n', 3, 5, record(1, 3, 0, 4)),
    ('READ saw 0', 3, 5, record(1, 2, 0, 0)),
    ('WRITE at tablet 1', 3, 5, record(2, 1, 4, 4)),
    ('WRITE at tablet n', 3, 5, record(2, 3, 4, 4)),
    ('WRITE of 0 that saw 0', 3, 5, record(2, 2, 0, 0)),
    ('STABILIZE found 0', 3, 5, record(3, 0, 0, 0)),
    ('STABILIZE found v - 1', 3, 5, record(3, 0, 0, 4)),
    ('STABILIZE found 0 and a conflict', 3, 5, record(3, 0, 0, 0, 1 << 1)),
    ('STABILIZE with the first value in conflict', 3, 5, record(3, 0, 0, 4, 1 << 1)),
    ('STABILIZE with value v - 1 in conflict', 3, 5, record(3, 0, 0, 4, 1 << 4)),
    ('STABILIZE with all values in conflict', 3, 5, record(3, 0, 0, 4, 0b11110)),
    ('STABILIZE failed', 3, 5, record(4, 0, 0, 0)),
    ('n = 1, tablet 1', 1, 5, record(2, 1, 4, 0)),
    ('n = 8, tablet 8', 8, 5, record(1, 8, 0, 0)),
    ('v = 1, the empty set', 1, 1, record(3, 0, 0, 0)),
    ('v = 1, a write of 0', 1, 1, record(2, 1, 0, 0)),
    ('v = 2, bit 1', 1, 2, record(3, 0, 0, 1, 1 << 1)),
    ('v = 8, bit 7', 1, 8, record(3, 0, 0, 7, 1 << 7)),
    ('v = 9, bit 8', 1, 9, record(3, 0, 0, 8, 1 << 8)),
    ('v = 32, bit 31', 1, 32, record(3, 0, 0, 31, 1 << 31)),
    ('v = 33, bit 32', 1, 33, record(3, 0, 0, 32, 1 << 32)),
    ('v = 63, bit 62', 1, 63, record(3, 0, 0, 62, 1 << 62)),
    ('v = 64, bit 63', 1, 64, record(3, 0, 0, 63, 1 << 63)),
    ('v = 64, every bit but bit 0', 1, 64, record(3, 0, 0, 63, 0xfffffffffffffffe)),
    ('v = 64, a read of 63', 1, 64, record(1, 1, 0, 63)),
    ('v = 64, a write of 63 that saw 63', 1, 64, record(2, 1, 63, 63)),
]
BAD_RECORDS = [
    ('kind 0', 3, 5, record(0, 0, 0, 0)),
    ('kind 5', 3, 5, record(5, 1, 0, 0)),
    ('kind 6', 3, 5, record(6, 1, 0, 0)),
    ('kind 255', 3, 5, record(255, 0, 0, 0)),
    ('READ at tablet 0', 3, 5, record(1, 0, 0, 4)),
    ('READ at tablet n + 1', 3, 5, record(1, 4, 0, 4)),
    ('READ at tablet 255', 3, 5, record(1, 255, 0, 4)),
    ('READ with new 1', 3, 5, record(1, 1, 1, 4)),
    ('READ saw v', 3, 5, record(1, 1, 0, 5)),
    ('READ saw 255', 3, 5, record(1, 1, 0, 255)),
    ('READ with bit 0', 3, 5, record(1, 1, 0, 4, 1 << 0)),
    ('READ with bit 1', 3, 5, record(1, 1, 0, 4, 1 << 1)),
    ('WRITE at tablet 0', 3, 5, record(2, 0, 4, 4)),
    ('WRITE at tablet n + 1', 3, 5, record(2, 4, 4, 4)),
    ('WRITE at tablet 255', 3, 5, record(2, 255, 4, 4)),
    ('WRITE of v', 3, 5, record(2, 1, 5, 4)),
    ('WRITE of 255', 3, 5, record(2, 1, 255, 4)),
    ('WRITE saw v', 3, 5, record(2, 1, 4, 5)),
    ('WRITE saw 255', 3, 5, record(2, 1, 4, 255)),
    ('WRITE with bit 0', 3, 5, record(2, 1, 4, 4, 1 << 0)),
    ('WRITE with bit 1', 3, 5, record(2, 1, 4, 4, 1 << 1)),
    ('STABILIZE at tablet 1', 3, 5, record(3, 1, 0, 4)),
    ('STABILIZE with new 1', 3, 5, record(3, 0, 1, 4)),
    ('STABILIZE found v', 3, 5, record(3, 0, 0, 5)),
    ('STABILIZE found 255', 3, 5, record(3, 0, 0, 255)),
    ('STABILIZE with bit 0', 3, 5, record(3, 0, 0, 4, 1 << 0)),
    ('STABILIZE with bits 0 and 1', 3, 5, record(3, 0, 0, 4, 0b11)),
    ('STABILIZE with bit v', 3, 5, record(3, 0, 0, 4, 1 << 5)),
    ('STABILIZE with bits v - 1 and v', 3, 5, record(3, 0, 0, 4, 0b110000)),
    ('STABILIZE with bit 63', 3, 5, record(3, 0, 0, 4, 1 << 63)),
    ('STABILIZE failed at tablet 1', 3, 5, record(4, 1, 0, 0)),
    ('STABILIZE failed with new 1', 3, 5, record(4, 0, 1, 0)),
    ('STABILIZE failed that found 1', 3, 5, record(4, 0, 0, 1)),
    ('STABILIZE failed with bit 0', 3, 5, record(4, 0, 0, 0, 1 << 0)),
    ('STABILIZE failed with bit 1', 3, 5, record(4, 0, 0, 0, 1 << 1)),
    ('n = 1, tablet 2', 1, 5, record(2, 2, 4, 0)),
    ('n = 8, tablet 9', 8, 5, record(1, 9, 0, 0)),
    ('v = 1, bit 0', 1, 1, record(3, 0, 0, 0, 1 << 0)),
    ('v = 1, bit 1', 1, 1, record(3, 0, 0, 0, 1 << 1)),
    ('v = 1, bit 63', 1, 1, record(3, 0, 0, 0, 1 << 63)),
    ('v = 1, a read of 1', 1, 1, record(1, 1, 0, 1)),
    ('v = 1, a write of 1', 1, 1, record(2, 1, 1, 0)),
    ('v = 2, bit 2', 1, 2, record(3, 0, 0, 1, 1 << 2)),
    ('v = 8, bit 8', 1, 8, record(3, 0, 0, 7, 1 << 8)),
    ('v = 32, bit 32', 1, 32, record(3, 0, 0, 31, 1 << 32)),
    ('v = 33, bit 33', 1, 33, record(3, 0, 0, 32, 1 << 33)),
    ('v = 63, bit 63', 1, 63, record(3, 0, 0, 62, 1 << 63)),
    ('v = 64, bit 0', 1, 64, record(3, 0, 0, 63, 1 << 0)),
    ('v = 64, every bit', 1, 64, record(3, 0, 0, 63, 0xffffffffffffffff)),
    ('v = 64, a read of 64', 1, 64, record(1, 1, 0, 64)),
    ('v = 64, a write of 64', 1, 64, record(2, 1, 64, 63)),
] + [(f'{kind} with a bit in byte {i} of the set', 3, 5, record(number, tablet, 0, 0, 2 << 8 * i))
     for kind, number, tablet in [('READ', 1, 1), ('WRITE', 2, 1), ('STABILIZE', 3, 0), ('STABILIZE failed', 4, 0)]
     for i in range(1, 8)]


def table_of_records():
    """Each record stands second, after a good one: at byte 20 of the file, and at byte 12 of the records."""
    for name, n, v, row in GOOD_RECORDS:
        file = bytes([1, n, v, 1]) + entry(8, 2) + PLAIN + row
        handed(name, file, 1, PLAIN + row)
        written(name, n, v, [2], PLAIN + row, 32, file)
    for name, n, v, row in BAD_RECORDS:
        refused(name, bytes([1, n, v, 1]) + entry(8, 2) + PLAIN + row, 7, 20)
        unwritten(name, n, v, [2], PLAIN + row, 32, 7, 12)


def reader_records():
    """Which record is named, in which body, whichever trace is asked; value 0 in every observation."""
    refused('a bad first record', changed(D, 8, 0), 7, 8)
    refused('both records bad', changed(changed(D, 8, 0), 20, 0), 7, 8)
    for trace in (1, 2):
        refused(f'a bad record in body 1, trace {trace} asked', changed(PAIR, 12, 9), 7, 12, trace)
        refused(f'a bad record in body 2, trace {trace} asked', changed(PAIR, 36, 9), 7, 36, trace)
        refused(f'a bad record in each body, trace {trace} asked', changed(changed(PAIR, 12, 9), 24, 9), 7, 12, trace)
    refused('a bad record at 1,020', changed(LONG, 1020, 0), 7, 1020)
    refused('the last record of 16 bodies', changed(SIXTEEN, 248, 0), 7, 248)
    refused('the last of 256 records', bytes([1, 1, 1, 1]) + entry(8, 256) + PLAIN * 255 + bytes(12), 7, 3068)
    zeros = record(1, 1, 0, 0) + record(2, 2, 0, 0) + record(3, 0, 0, 0) + record(4, 0, 0, 0)
    handed('value 0 in every observation', bytes([1, 2, 1, 1]) + entry(8, 4) + zeros, 1, zeros)


def reader_two_faults():
    """The lower number wins; within 6, the earlier row, and then the earlier entry."""
    bad = changed(D, 23, 2)
    refused('length 3 and edition', b'\2\1\2', 1, 0)
    refused('no bytes and trace 0', b'', 1, 0, 0)
    refused('edition and n', changed(D, 0, 2, 0), 2, 0)
    refused('n and v', changed(D, 1, 9, 65), 3, 1)
    refused('v and k', changed(D, 2, 65, 0), 4, 2)
    refused('k and a byte left over', changed(D, 3, 17) + b'\0', 5, 3)
    refused('the whole head wrong', bytes([0, 0, 0, 0]), 2, 0)
    refused('n and a bad record', changed(bad, 1, 0), 3, 1)
    refused('v and trace 0', changed(D, 2, 0), 4, 2, 0)
    refused('k and trace 0', changed(D, 3, 0), 5, 3, 0)
    refused('an end in the contents and an offset', changed(PAIR, 4, 11)[:11], 6, 11)
    refused('an end in the contents and trace 0', PAIR[:11], 6, 11, 0)
    refused('both offsets', changed(changed(PAIR, 4, 11), 8, 25), 6, 4)
    refused('an offset and a byte left over', changed(PAIR, 8, 25) + b'\0', 6, 8)
    refused('an offset and a bad record', changed(bad, 4, 9), 6, 4)
    refused('a byte left over and a bad record', bad + b'\0', 6, 32)
    refused('a byte left over and trace 0', D + b'\0', 6, 32, 0)
    refused('a bad record and trace 0', bad, 7, 20, 0)
    refused('a bad record and trace k + 1', bad, 7, 20, 2)


def writer_limits():
    """The writer's n, v, number of counts and buffer, from both sides of each limit."""
    for buffer in (32, 33, 100, 65536):
        written(f'D, buffer {buffer}', 1, 2, [2], D_RECORDS, buffer, D)
    for buffer in (0, 4, 8, 31):
        unwritten(f'D, buffer {buffer}', 1, 2, [2], D_RECORDS, buffer, 9)
    for n in (0, 9, 255, 256, 257, 65537, 4294967295):
        unwritten(f'n = {n}', n, 2, [2], D_RECORDS, 32, 3)
    for v in (0, 65, 255, 256, 258, 65538, 4294967295):
        unwritten(f'v = {v}', 1, v, [2], D_RECORDS, 32, 4)
    written('n = 8', 8, 2, [2], D_RECORDS, 32, changed(D, 1, 8))
    written('v = 64', 1, 64, [2], D_RECORDS, 32, changed(D, 2, 64))
    written('v = 1', 1, 1, [1], PLAIN, 20, bytes([1, 1, 1, 1]) + entry(8, 1) + PLAIN)
    unwritten('no counts', 1, 2, [], b'', 100, 5)
    unwritten('no counts and two records', 1, 2, [], D_RECORDS, 100, 5)
    unwritten('17 counts', 1, 2, [0] * 17, b'', 100, 5)
    unwritten('17 counts and their records', 1, 2, [1] * 17, PLAIN * 17, 500, 5)
    written('16 counts of 0', 1, 2, [0] * 16, b'', 68, bytes([1, 1, 2, 16]) + entry(68, 0) * 16)
    unwritten('16 counts of 0, buffer 67', 1, 2, [0] * 16, b'', 67, 9)
    written('no records', 2, 1, [0], b'', 8, bytes([1, 2, 1, 1, 8, 0, 0, 0]))
    unwritten('no records, buffer 7', 2, 1, [0], b'', 7, 9)


def writer_counts():
    """The writer's counts against the bytes of its records."""
    for counts, bytes_given in [
            ([2], 23), ([2], 25), ([2], 12), ([2], 36), ([2], 0), ([0], 1), ([0], 12), ([1], 0), ([1], 11), ([1], 13),
            ([1, 1], 23), ([1, 1], 25), ([0, 2], 12), ([2, 0], 36)]:
        unwritten(f'counts {counts}, {bytes_given} bytes', 1, 2, counts, (PLAIN * 3)[:bytes_given], 100, 6)
    # 12 times 357,913,942 is 8 more than 2^32, and 12 times 1,073,741,826 is 24 more than 3 * 2^32.
    for count, bytes_given in (258, 24), (65536, 0), (65538, 24), (357913942, 8), (1073741826, 24), (4294967295, 0):
        unwritten(f'a count of {count}', 1, 2, [count], D_RECORDS[:bytes_given], 100, 6)
        unwritten(f'a second count of {count}', 1, 2, [0, count], D_RECORDS[:bytes_given], 100, 6)
    unwritten('a count of 257 and its records', 1, 2, [257], PLAIN * 257, 4000, 6)
    written('a count of 255', 1, 2, [255], PLAIN * 255, 3068, bytes([1, 1, 2, 1, 8, 0, 255, 0]) + PLAIN * 255)
    written('a count of 256', 1, 2, [256], PLAIN * 256, 3080, bytes([1, 1, 2, 1, 8, 0, 0, 1]) + PLAIN * 256)
    unwritten('a count of 256, buffer 3,079', 1, 2, [256], PLAIN * 256, 3079, 9)
    one, two = D_RECORDS[:12], D_RECORDS[12:]
    written('two bodies of 1', 1, 2, [1, 1], one + two, 36, bytes([1, 1, 2, 2]) + entry(12, 1) + entry(24, 1) + one + two)
    written('bodies of 0 and 2', 1, 2, [0, 2], one + two, 36, bytes([1, 1, 2, 2]) + entry(12, 0) + entry(12, 2) + one + two)
    written('bodies of 2 and 0', 1, 2, [2, 0], one + two, 36, bytes([1, 1, 2, 2]) + entry(12, 2) + entry(36, 0) + one + two)
    written('bodies of 84 and 1', 1, 1, [84, 1], PLAIN * 85, 1032, LONG)
    counts = [len(body) // 12 for body in SIXTEEN_BODIES]
    written('16 bodies', 8, 64, counts, SIXTEEN[68:], 260, SIXTEEN)
    unwritten('16 bodies, buffer 259', 8, 64, counts, SIXTEEN[68:], 259, 9)
    written('the largest file', 1, 16, [256] * 16, FULL[68:], 49220, FULL)


def writer_records_and_two_faults():
    """Which record the writer names; where two faults meet, the lower number wins."""
    bad = changed(D_RECORDS, 15, 2)
    unwritten('D with seen = 2 in the second record', 1, 2, [2], bad, 32, 7, 12)
    unwritten('a bad first record', 1, 2, [2], changed(D_RECORDS, 0, 0), 32, 7, 0)
    unwritten('both records bad', 1, 2, [2], bytes(24), 32, 7, 0)
    unwritten('a bad record in body 2', 1, 2, [1, 1], bad, 36, 7, 12)
    unwritten('the last of 256 records', 1, 2, [256], PLAIN * 255 + bytes(12), 3080, 7, 3060)
    zeros = record(1, 1, 0, 0) + record(2, 2, 0, 0) + record(3, 0, 0, 0) + record(4, 0, 0, 0)
    written('value 0 in every observation', 2, 1, [4], zeros, 56, bytes([1, 2, 1, 1]) + entry(8, 4) + zeros)
    unwritten('n and v', 0, 0, [2], D_RECORDS, 32, 3)
    unwritten('n and no counts', 9, 2, [], b'', 32, 3)
    unwritten('v and no counts', 1, 65, [], b'', 32, 4)
    unwritten('17 counts and one of 257', 1, 2, [0] * 16 + [257], b'', 100, 5)
    unwritten('no counts and no buffer', 1, 2, [], b'', 0, 5)
    unwritten('a count and a bad record', 1, 2, [1], bad, 32, 6)
    unwritten('a count and no buffer', 1, 2, [257], D_RECORDS, 0, 6)
    unwritten('a bad record and no buffer', 1, 2, [2], bad, 0, 7, 12)
    unwritten('all at once', 9, 65, [], b'\0', 0, 3)


def vectors_from_outside():
    with open(os.path.join(HERE, 'writer.jsonl'), encoding='ascii') as lines:
        for i, line in enumerate(lines, 1):
            x = json.loads(line)
            given = (f'writer.jsonl line {i}', x['n'], x['v'], x['counts'], bytes.fromhex(x['records']), x['buffer'])
            if x['result'] is None:
                unwritten(*given, x['refusal'], x['place'])
            else:
                written(*given, bytes.fromhex(x['result']))


def main():
    reader_printed()
    reader_lengths()
    reader_head()
    reader_contents()
    reader_traces()
    table_of_records()
    reader_records()
    reader_two_faults()
    writer_limits()
    writer_counts()
    writer_records_and_two_faults()
    vectors_from_outside()
    names = [(kind, name) for kind, name, _ in cases]
    assert len(set(names)) == len(names), 'two cases have the same name'
    os.makedirs(os.path.dirname(CASES), exist_ok=True)
    with open(CASES, 'wb') as out:
        out.write(b''.join(packed for _, _, packed in cases))
    for kind, label in (READER, 'reader'), (WRITER, 'writer'):
        print(f'{label}: {sum(k == kind for k, _, _ in cases)} cases')


main()
