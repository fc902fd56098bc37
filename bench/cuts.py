#!/usr/bin/env python3
"""Cuts sources to each length in bytes, and checks that a program answers each with a listing or with the line of a refusal.

cuts.py PROGRAM [FILE.rows ..]

Without files, the sources are those of the cases of `crates/wit_rows/data/worked.rows` and `hostile.rows`. A case of several sources is cut
as the text that the program has from standard input. Each source is also cut with an LF at its end.
"""
import concurrent.futures
import os
import re
import subprocess
import sys

HERE = os.path.dirname(os.path.abspath(__file__))
DATA = os.path.join(HERE, '..', 'crates', 'wit_rows', 'data')
LINE = re.compile(rb'error E\d+ [^\n]*: [^\n]*\n')


def sources(path):
    """The sources of the cases of a file of rows, without repeats."""
    with open(path) as file:
        cases = ('\n' + file.read()).split('\n--- ')[1:]
    found = {}
    for case in cases:
        head, _, rest = case.partition('\n')
        if not head.split(' ')[0].endswith('\\'):
            text = ('\n' + rest).split('\n=>\n')[0][1:]
            found[text + '\n'] = None
    return list(found)


def is_answered(program, text):
    run = subprocess.run([program], input=text, stdout=subprocess.PIPE, stderr=subprocess.PIPE)
    if run.stderr:
        return False
    if run.returncode == 1:
        return LINE.fullmatch(run.stdout) is not None
    return run.returncode == 0 and run.stdout.startswith(b'package ') and run.stdout.endswith(b'\n')


def main():
    program = os.path.abspath(sys.argv[1])
    paths = sys.argv[2:] or [os.path.join(DATA, it) for it in ('worked.rows', 'hostile.rows')]
    texts = [text.encode() for path in paths for text in sources(path)]
    cuts = list({text[:length]: None for text in texts for length in range(len(text) + 1)})
    wrong = 0
    with concurrent.futures.ThreadPoolExecutor(2) as pool:
        for cut, well in zip(cuts, pool.map(lambda cut: is_answered(program, cut), cuts)):
            if not well:
                wrong += 1
                print('neither a listing nor a line: %r' % cut)
    print('%d sources, %d texts, %d wrong' % (len(texts), len(cuts), wrong))
    sys.exit(wrong > 0)


if __name__ == '__main__':
    main()
