#!/usr/bin/env python3
"""Instructions and peak memory of a program on the shapes at growing sizes, and the exponent of growth. Needs valgrind and GNU time.

measure.py PROGRAM [--beside OTHER] SHAPE:N,N,.. [SHAPE:N,N,..]..

Beside another program, which reads the same, each number is given as a part of the other's too. A shape of `collide.py` is
written `colliding-SHAPE`, and `plain-SHAPE` where its names are ordinary ones.
"""
import math
import os
import re
import subprocess
import sys
import tempfile

HERE = os.path.dirname(os.path.abspath(__file__))


def instructions(program, path):
    """The instructions of a run, reading and writing included."""
    with open(path) as source:
        run = subprocess.run(['valgrind', '--tool=callgrind', '--callgrind-out-file=/dev/null', program],
                             stdin=source, stdout=subprocess.DEVNULL, stderr=subprocess.PIPE)
    return int(re.search(rb'Collected : (\d+)', run.stderr).group(1))


def peak(program, path):
    """The most memory that a run holds at once, in bytes; through time, since a child's peak begins with its parent's."""
    with open(path) as source, tempfile.NamedTemporaryFile('r') as told:
        subprocess.run(['time', '-q', '-o', told.name, '-f', '%M', program], stdin=source, stdout=subprocess.DEVNULL,
                       stderr=subprocess.DEVNULL)
        return int(told.read()) * 1024


def written(shape, size):
    """The command that writes a shape."""
    kind, _, name = shape.partition('-')
    if kind in ('colliding', 'plain'):
        return ['collide.py', name, str(size)] + ['plain'] * (kind == 'plain')
    return ['shapes.py', shape, str(size)]


def main():
    program, *words = sys.argv[1:]
    other = os.path.abspath(words[1]) if words[:1] == ['--beside'] else None
    program = os.path.abspath(program)
    print('%-23s %9s %9s %10s %8s %9s %8s %9s' % ('shape', 'N', 'KB', 'Mi', 'exponent', 'of other', 'peak MB', 'of other'))
    with tempfile.TemporaryDirectory() as folder:
        for word in words[2 if other else 0:]:
            shape, _, sizes = word.partition(':')
            last = None
            for size in map(int, sizes.split(',')):
                path = os.path.join(folder, 'input.wit')
                with open(path, 'w') as out:
                    script, *rest = written(shape, size)
                    subprocess.run([sys.executable, os.path.join(HERE, script), *rest], stdout=out, check=True)
                count, most = instructions(program, path), peak(program, path)
                growth = '%.2f' % (math.log(count / last[1]) / math.log(size / last[0])) if last else ''
                parts = ['%.2f' % (count / instructions(other, path)), '%.2f' % (most / peak(other, path))] if other else ['', '']
                print('%-23s %9d %9.1f %10.1f %8s %9s %8.1f %9s' % (shape, size, os.path.getsize(path) / 1e3, count / 1e6, growth, parts[0],
                                                                  most / 1e6, parts[1]), flush=True)
                last = (size, count)


if __name__ == '__main__':
    main()
