#!/usr/bin/env python3
"""Times a million calls on a heap, and Python's list and dict at the same. Builds its program in a folder of its own."""
import os
import shutil
import subprocess
import tempfile
import time

TOP = os.path.join(os.path.dirname(os.path.abspath(__file__)), '..')
CALLS = 1_000_000
# what as many words behind the program's name ask for
CASES = ('nothing', 'pushes', 'puts', 'puts and reads', 'Strings of six bytes', 'empty lists', 'maps of one entry')


PROGRAM = r'''//! A million calls on a heap. How many words there are says which calls; `bench/heap.py` times them.
#![tactic(auto)]

ghost use Rattle.std.specs.Prelude.{OnOk};
ghost use Rattle.gv_heap.specs.Heap.{object_at};
ghost use Rattle.gv_heap.specs.Kinds.{IsListObject, IsMapObject};

use gv_base::{ObjId, Value};
use gv_heap::{Heap, HeapError, MapKey};
use std::alloc::Global;
use std::env;
use std::process::ExitCode;

fn main(rt: HostRuntime) -> ExitCode {
    let Ok(words) = env::args(&rt) else {
        return ExitCode::FAILURE;
    };
    match run(rt.alloc(), words.len()) {
        Ok(()) => ExitCode::SUCCESS,
        Err(_) => ExitCode::FAILURE,
    }
}

const CALLS: i32 = 1_000_000;

const CELLS: u64 = 64_000_000;

fn run(alloc: Global, words: usize) -> Result<(), HeapError> {
    match words {
        2 => pushes(alloc, CALLS),
        3 => puts(alloc, CALLS),
        4 => gets(alloc, CALLS),
        5 => texts(alloc, CALLS),
        6 => lists(alloc, CALLS),
        7 => maps(alloc, CALLS),
        _ => Ok(()),
    }
}

fn pushes(alloc: Global, count: i32) -> Result<(), HeapError> {
    let mut heap = Heap::new(alloc, CELLS);
    let list = heap.make_list(Vec::new(alloc))?;
    for n in 0..count {
        push(&mut heap, list, Value::Int(n))?;
    }
    Ok(())
}

fn push(heap: &mut Heap, list: ObjId, value: Value) -> Result<(), HeapError>
    requires { IsListObject (object_at heap.old list) }
    ensures { IsListObject (object_at heap.new list) }
{
    heap.push(list, value)
}

fn puts(alloc: Global, count: i32) -> Result<(), HeapError> {
    let mut heap = Heap::new(alloc, CELLS);
    let map = heap.make_map()?;
    for n in 0..count {
        put(&mut heap, map, n)?;
    }
    Ok(())
}

fn put(heap: &mut Heap, map: ObjId, n: i32) -> Result<(), HeapError>
    requires { IsMapObject (object_at heap.old map) }
    ensures { IsMapObject (object_at heap.new map) }
{
    heap.put(map, MapKey::Int(n), Value::Int(n), Value::Int(n))
}

fn gets(alloc: Global, count: i32) -> Result<(), HeapError> {
    let mut heap = Heap::new(alloc, CELLS);
    let map = heap.make_map()?;
    for n in 0..count {
        put(&mut heap, map, n)?;
    }
    let entries = heap.map(map);
    for n in 0..count {
        if entries.get(&MapKey::Int(n)).is_none() {
            return Err(HeapError::CellsSpent);
        }
    }
    Ok(())
}

fn texts(alloc: Global, count: i32) -> Result<(), HeapError> {
    let mut heap = Heap::new(alloc, CELLS);
    for _ in 0..count {
        heap.make_text("a text")?;
    }
    Ok(())
}

fn lists(alloc: Global, count: i32) -> Result<(), HeapError> {
    let mut heap = Heap::new(alloc, CELLS);
    for _ in 0..count {
        heap.make_list(Vec::new(alloc))?;
    }
    Ok(())
}

fn maps(alloc: Global, count: i32) -> Result<(), HeapError> {
    let mut heap = Heap::new(alloc, CELLS);
    for n in 0..count {
        let map = heap.make_map()?;
        put(&mut heap, map, n)?;
    }
    Ok(())
}
'''

# what each loop keeps: the object stays of its kind
INVARIANT = '''use Rattle.gv_heap.specs.Heap.{object_at}
use Rattle.gv_heap.specs.Kinds.{Is%(kind)sObject}
use Rattle.heap_bench.proofs.%(loop)s.Given as goal

abbrev pub invariant-loop-n : goal.invariant-loop-n
invariant-loop-n l = Is%(kind)sObject (object_at l.heap l.%(name)s)
'''


def put_file(path, text):
    os.makedirs(os.path.dirname(path), exist_ok=True)
    with open(path, 'w') as file:
        file.write(text)


def built(folder):
    """The program, proved and built over copies of the crates that it stands on."""
    for crate in ('gv_base', 'gv_heap'):
        shutil.copytree(os.path.join(TOP, 'crates', crate), os.path.join(folder, 'crates', crate))
    crate = os.path.join(folder, 'crates', 'heap_bench')
    put_file(os.path.join(crate, 'src', 'main.rt'), PROGRAM)
    put_file(os.path.join(crate, 'specs', 'Lib.antt'), '')
    for loop, kind, name in (('pushes', 'List', 'list'), ('puts', 'Map', 'map'), ('gets', 'Map', 'map')):
        put_file(os.path.join(crate, 'proofs', loop, 'Invariants.antt'), INVARIANT % {'loop': loop, 'kind': kind, 'name': name})
    shutil.copy(os.path.join(TOP, 'HANDLES'), folder)
    with open(os.path.join(TOP, 'crates.txt')) as file:
        lines = [line for line in file if line.split(':')[0] in ('gv_base', 'gv_heap')]
    with open(os.path.join(folder, 'crates.txt'), 'w') as file:
        file.writelines(lines + ['heap_bench: gv_base gv_heap\n'])
    subprocess.run(['git', 'init', '-q', folder], check=True)
    subprocess.run(['rt', 'run'], cwd=crate, check=True, stdout=subprocess.DEVNULL)
    return os.path.join(crate, 'out', 'heap_bench')


def measure(program, words):
    """Seconds and the peak of memory in KiB of one run in a process of its own."""
    start = time.perf_counter()
    pid = os.fork()
    if pid == 0:
        os.execv(program, [program] + ['x'] * words)
    _, status, usage = os.wait4(pid, 0)
    if status != 0:
        raise SystemExit('%s ended with %d' % (CASES[words], status))
    return time.perf_counter() - start, usage.ru_maxrss


def pushes():
    items = []
    for n in range(CALLS):
        items.append(n)


def puts():
    items = {}
    for n in range(CALLS):
        items[n] = n
    return items


def puts_and_reads():
    items = puts()
    for n in range(CALLS):
        if items.get(n) is None:
            raise SystemExit('a key is missing')


def timed(call):
    start = time.perf_counter()
    call()
    return time.perf_counter() - start


def main():
    with tempfile.TemporaryDirectory() as folder:
        program = built(folder)
        for words, name in enumerate(CASES):
            runs = [measure(program, words) for _ in range(3)]
            print('%-22s %6.3f s  %8d KiB' % (name, min(run[0] for run in runs), runs[-1][1]))
    for name, call in (('pushes', pushes), ('puts', puts), ('puts and reads', puts_and_reads)):
        print('%-22s %6.3f s  in Python' % (name, min(timed(call) for _ in range(3))))


if __name__ == '__main__':
    main()
