#!/usr/bin/env python3
"""Writes samples/: a trace file for each of the evenings A to K, and damaged forms of the file of D."""
import os

from evenings import PRINTED, file_of

SAMPLES = os.path.join(os.path.dirname(os.path.abspath(__file__)), '..', 'samples')


def write(name, file):
    with open(os.path.join(SAMPLES, name + '.trace'), 'wb') as out:
        out.write(file)


def main():
    os.makedirs(SAMPLES, exist_ok=True)
    files = {name: file_of(n, [trace]) for name, n, trace, *_ in PRINTED if len(name) == 1}
    for name, file in files.items():
        write(name, file)
    d = files['D']
    write('D-cut', d[:-1])
    write('D-longer', d + b'\0')
    write('D-bad-record', d[:23] + b'\2' + d[24:])
    write('none', b'')


if __name__ == '__main__':
    main()
