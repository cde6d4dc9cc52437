#!/usr/bin/env python3
"""Times the built program on files near the limit of a file's size, and Python's tokenizer on similar text."""
import io
import os
import resource
import subprocess
import sys
import tempfile
import time
import tokenize

MIB = 1 << 20
PROGRAM = os.path.join(os.path.dirname(os.path.abspath(__file__)), '../crates/groovy_cli/out/groovy_cli')

# an ordinary script
SCRIPT = b'''def greet(String name, int times = 1) {
    for (int i = 0; i < times; i++) {
        println "Hello, ${name}! ${i + 1} of $times"
    }
    return [name: name, times: times]
}
class Point {
    int x, y
    Point(int x, int y) { this.x = x; this.y = y }
    def plus(Point other) { new Point(x + other.x, y + other.y) }
}
list.findAll { it.size > 3 }.collect { it.name.toUpperCase() }.each { println it }
task build(dependsOn: 'clean') {
    doLast { copy from: src, to: "build/$version" }
}
try {
    if (a == b && c != null) { foo(a, b: 2) } else { bar c, d }
} catch (IOException | RuntimeException e) {
    throw new IllegalStateException('bad', e)
} finally { close() }
switch (x) { case 1: y = 2; break; default: y = x ? 3 : 4 }
'''

# name, what the file begins with, the piece that fills it, what ends it, and the piece of a similar text in Python;
# the numbers in a piece are others each time
CASES = (
    ('blanks', b'', b' ', b'', None),
    ('sums', b'', b'println 1 + 2\n', b'', b'print (1 + 2)\n'),
    ('names', b'', b'name1 other2 third3\n', b'', b'name1 ;other2 ;third3\n'),
    ('new names', b'', b'n%06d n%06d n%06d\n', b'', b'n%06d ;n%06d ;n%06d\n'),
    ('numbers', b'', b'123 0x4F 567_890L\n', b'', b'123 ;0x4F ;567_890\n'),
    ('one number', b'', b'7', b'', None),
    ('nested parts', b'', b'"${', b'', None),
    ('open comment', b'', b'/*', b'', None),
    ('one string', b"'", b'text', b"'", None),
    ('parts', b'', b'"text ${name} $other.third"\n', b'', b'"text" ;name ;other.third\n'),
    ('script', b'', SCRIPT, b'', None),
    ('one list', b'x = [', b'1, ', b'1]', None),
    ('braces', b'', b'{', b'', None),
    ('closures', b'', b'a { ', b'', None),
    ('heads', b'', b'if (a)\n', b'', None),
    ('parentheses', b'', b'(', b'', None),
    ('members', b'a', b'.b', b'', None),
    ('commands', b'', b'a ', b'', None),
)


def numbered(piece, count):
    """So many pieces, their numbers counted up."""
    holes = piece.count(b'%0')
    if not holes:
        return piece * count
    return b''.join(piece % tuple(range(n * holes, (n + 1) * holes)) for n in range(count))


def filled(head, piece, tail, size):
    """Whole pieces, as many as fit into a size with what stands before and behind them."""
    length = len(numbered(piece, 1))
    return head + numbered(piece, (size - len(head) - len(tail)) // length) + tail


def measure(path):
    """Seconds, the status and the bytes written of one run in a process of its own."""
    start = time.perf_counter()
    child = subprocess.Popen([PROGRAM, path], stdout=subprocess.PIPE, stderr=subprocess.PIPE)
    out, err = child.communicate()
    return time.perf_counter() - start, child.returncode, len(out), err


def tokenized(text):
    """Seconds that Python's tokenizer takes over a text."""
    start = time.perf_counter()
    for _ in tokenize.tokenize(io.BytesIO(text).readline):
        pass
    return time.perf_counter() - start


def main():
    if len(sys.argv) == 2:
        # in a process of its own, so that the peak is this run's
        seconds, status, written, err = measure(sys.argv[1])
        peak = resource.getrusage(resource.RUSAGE_CHILDREN).ru_maxrss
        size = os.path.getsize(sys.argv[1])
        with open(sys.argv[1], 'rb') as file:
            lines = file.read().count(b'\n')
        print('%8.3f s  %10.0f bytes/s  %8.0f lines/s  %8d KiB  status %d, %d bytes written %s'
              % (seconds, size / seconds, lines / seconds, peak, status, written, err.decode().rpartition('/')[2].strip()))
        return
    with tempfile.TemporaryDirectory() as folder:
        for name, head, piece, tail, similar in CASES:
            for size in (MIB // 4, MIB // 2, MIB):
                path = os.path.join(folder, 'bench.groovy')
                with open(path, 'wb') as file:
                    file.write(filled(head, piece, tail, size))
                print('%-13s %8d bytes ' % (name, os.path.getsize(path)), end='', flush=True)
                subprocess.run([sys.executable, os.path.abspath(__file__), path], check=True)
            if similar:
                text = filled(b'', similar, b'', MIB)
                seconds = tokenized(text)
                print('%-13s %8d bytes %8.3f s  %10.0f bytes/s' % ('  in Python', len(text), seconds, len(text) / seconds))


if __name__ == '__main__':
    main()
