#!/usr/bin/env python3
"""Times what refuses a script for its names, and what tells what they mean, on scripts of up to 1 MiB, each also at half and at a
quarter of its size. None of them runs: each ends with 40, not built yet, behind its phases, but for the circle."""
import os
import subprocess
import tempfile
import time

PROGRAM = os.path.join(os.path.dirname(os.path.abspath(__file__)), '../crates/groovy_cli/out/groovy_cli')
MOST = 1 << 20


def upto(size, piece):
    """Pieces with the numbers from 1 on, as many as fit."""
    text, number = [], 1
    while size > 0:
        text.append(piece(number))
        size -= len(text[-1])
        number += 1
    return ''.join(text[:-1])


def chain(size):
    return 'class C0 { }\n' + upto(size - 100, lambda n: f'class C{n} extends C{n - 1} {{ }}\n')


def circle(size):
    script = chain(size)
    last = script.rstrip().rsplit('\n', 1)[1].split()[1]
    return script.replace('class C0 { }', f'class C0 extends {last} {{ }}', 1)


SCRIPTS = {
    'classes in one chain': chain,
    'a circle of all classes': circle,
    'classes with a property and a method': lambda size: upto(size, lambda n: f'class C{n} {{ int p; def m(a) {{ a + p }} }}\n'),
    'one class of properties': lambda size: 'class A {\n' + upto(size - 20, lambda n: f'def p{n}\n') + '}\n',
    'one class of methods': lambda size: 'class A {\n' + upto(size - 20, lambda n: f'def m{n}(a) {{ a }}\n') + '}\n',
    'one method with defaults, a 64th of the size': lambda size: 'def m(' + upto(size // 64, lambda n: f'a{n} = {n}, ') + 'z) { z }\n',
    'variables, each used once': lambda size: upto(size, lambda n: f'def a{n} = 1; a{n}()\n'),
    'a variable in many closures': lambda size: 'def a = 1\n' + upto(size - 20, lambda n: 'f { a }\n'),
    'variables captured by one closure': lambda size: upto(size // 2, lambda n: f'def a{n} = 1\n') + 'f {\n' + upto(size // 3, lambda n: f'a{n}()\n') + '}\n',
    'closures in one another': lambda size: 'def a = 1\n' + 'f { ' * 100 + upto(size - 1000, lambda n: 'a()\n') + '}' * 100 + '\n',
}


def run(path):
    start = time.perf_counter()
    said = subprocess.run([PROGRAM, path], stderr=subprocess.PIPE, check=False).stderr.decode()
    return time.perf_counter() - start, said.split('refused ')[-1].split(':')[0]


def main():
    with tempfile.TemporaryDirectory() as folder:
        path = os.path.join(folder, 'a.groovy')
        for name, make in SCRIPTS.items():
            row, kinds = [], set()
            for size in (MOST // 4, MOST // 2, MOST):
                with open(path, 'w') as file:
                    file.write(make(size))
                took, kind = min(run(path) for _ in range(2))
                row.append(f'{took:6.2f}')
                kinds.add(kind)
            print(f'{name:44}', *row, 'kind', *sorted(kinds))


main()
