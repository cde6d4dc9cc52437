#!/usr/bin/env python3
"""Times a loop of a million turns on the built program, on Python 3 and, where it is there, on Lua 5.4."""
import os
import shutil
import subprocess
import sys
import tempfile
import time

PROGRAM = os.path.join(os.path.dirname(os.path.abspath(__file__)), '../crates/groovy_cli/out/groovy_cli')
TURNS = 1_000_000
SCRIPTS = {
    'groovy': f'def i = 0\ndef s = 0L\nwhile (i < {TURNS}) {{ s = s + i * 3 - 1; i = i + 1 }}\nprintln s\n',
    'py': f'i = 0\ns = 0\nwhile i < {TURNS}:\n    s = s + i * 3 - 1\n    i = i + 1\nprint(s)\n',
    'lua': f'local i = 0\nlocal s = 0\nwhile i < {TURNS} do s = s + i * 3 - 1; i = i + 1 end\nprint(s)\n',
}


def seconds(command):
    """The best of three runs, and what the last one printed."""
    best, said = None, b''
    for _ in range(3):
        start = time.perf_counter()
        said = subprocess.run(command, stdout=subprocess.PIPE, check=True).stdout
        took = time.perf_counter() - start
        best = took if best is None else min(best, took)
    return best, said


def main():
    runners = [('groovy', [PROGRAM]), ('py', [sys.executable])]
    if shutil.which('lua5.4'):
        runners.append(('lua', ['lua5.4']))
    answers = set()
    with tempfile.TemporaryDirectory() as folder:
        for kind, command in runners:
            path = os.path.join(folder, 'loop.' + kind)
            with open(path, 'w') as file:
                file.write(SCRIPTS[kind])
            took, said = seconds(command + [path])
            answers.add(said)
            print(f'{kind}: {took:.2f} s, {TURNS / took:,.0f} turns a second')
    sys.exit(0 if len(answers) == 1 else 'the answers differ')


main()
