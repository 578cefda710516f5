#!/usr/bin/env python3
"""Crashes the real program at each of its system calls, and looks at what the disk may then hold.

crashes.py PROGRAM [--seed S] [--share X] [--only NAME] [--deaf meta|volumes|names|drops]

The program runs under strace on real files. Its calls on the store (open, write, sync, rename, mkdir, unlink) are replayed
into a small model of a disk and of the system's memory over it. Behind each call the power may be cut. Then

- of a file, each block that was written since its last successful sync holds the old bytes, the new ones, some sectors of
  both, zeros or noise; a file that was never synced may also be shorter;
- of a directory, each making, renaming and removing of a name since its last successful sync is there or isn't;
- where a sync failed, the system still reads what it couldn't write, and the next sync succeeds without writing it,
  until POSIX_FADV_DONTNEED has it read the disk.

Each such disk is written out and opened with the program. `run` has to end with status 0, or with 8 as long as no `create`
ended with 0 or 9. What a query gives has to be, of each series, whole leaves that were written: all of the first ones, but
for those in volumes that were used again, and among them all that a flush covered whose `+OK` was written before the cut.
Which volumes were used again is known from the calls too: those of the ordinals that the newest one, or the one behind it,
leaves no room for. Then a point is put and flushed, and has to be found.

The status is 3 where a fault was found.
"""

import argparse
import os
import random
import re
import shutil
import struct
import subprocess
import sys
import tempfile
import time

BLOCK = 4096
SECTOR = 512
QUERY = b'+!query\r\n$14\r\n{"select":"m"}\r\n'
SMALL = '--volumes 2 --blocks 16 --slot 1 --pool 2 --every 2 --scale 0'.split()
WIDE = '--volumes 2 --blocks 32 --slot 2 --pool 4 --every 3 --scale 0'.split()
LATE = ('m host=0', b'%d,7' % (1 << 40), b'+m host=0\r\n:%d\r\n:7\r\n+!flush\r\n' % (1 << 40))

# What is traced. A call of the second list that touches the store is none that this script can replay.
KNOWN = ['openat', 'pwrite64', 'write', 'fsync', 'fdatasync', 'rename', 'mkdir', 'unlink', 'close', 'ftruncate',
         'fadvise64', 'pread64', 'flock', 'fchmod']
OTHER = ['open', 'creat', 'pwritev', 'pwritev2', 'writev', 'sendfile', 'copy_file_range', 'splice', 'fallocate', 'truncate',
         'link', 'linkat', 'symlink', 'symlinkat', 'unlinkat', 'renameat', 'renameat2', 'mkdirat', 'rmdir',
         'sync_file_range', 'sync', 'syncfs', 'dup', 'dup2', 'dup3', 'io_uring_setup']

# For a trial of the check itself: syncs of these do nothing, so that faults must be found.
DEAF_PATHS = {'meta': 'd/meta', 'volumes': 'd/vol', 'names': ''}


# ---------------------------------------------------------------- the disk

def noise(rng, length):
    return rng.getrandbits(8 * length).to_bytes(length, 'little')


def torn(rng, old, new):
    kind = rng.randrange(8)
    if kind < 2:
        return old
    if kind < 4:
        return new
    if kind == 4:
        return bytes(len(new))
    if kind == 5:
        return noise(rng, len(new))
    if kind == 6:
        return b'\1' + noise(rng, len(new))[1:]
    mixed = bytearray(old)
    for s in range(0, len(new), SECTOR):
        if rng.random() < 0.5:
            mixed[s:s + SECTOR] = new[s:s + SECTOR]
    return bytes(mixed)


class File:
    def __init__(self):
        self.data = bytearray()     # what a read gives
        self.stable = bytearray()   # what the disk holds, but for the dirty blocks
        self.dirty = set()
        self.synced = False         # whether its length lasts

    def write(self, data, offset):
        end = offset + len(data)
        if len(self.data) < end:
            self.data.extend(bytes(end - len(self.data)))
        self.data[offset:end] = data
        self.dirty.update(range(offset // BLOCK, (end + BLOCK - 1) // BLOCK))

    def sync(self):
        self._store(lambda old, new: new)

    def fail_sync(self, rng):
        """The blocks are clean for the system, and what the disk got of them is settled now."""
        self._store(lambda old, new: torn(rng, old, new))

    def _store(self, choose):
        if len(self.stable) < len(self.data):
            self.stable.extend(bytes(len(self.data) - len(self.stable)))
        for i in sorted(self.dirty):
            at = slice(i * BLOCK, min((i + 1) * BLOCK, len(self.data)))
            self.stable[at] = choose(bytes(self.stable[at]), bytes(self.data[at]))
        self.dirty = set()
        self.synced = True

    def reread(self):
        for i in range((len(self.data) + BLOCK - 1) // BLOCK):
            if i not in self.dirty:
                at = slice(i * BLOCK, (i + 1) * BLOCK)
                self.data[at] = self.stable[at]

    def lies(self):
        return not self.dirty and self.data != self.stable

    def left(self, rng):
        """The bytes that a power cut leaves."""
        disk = bytearray(self.stable)
        if len(disk) < len(self.data):
            disk.extend(bytes(len(self.data) - len(disk)))
        mode = rng.choice(['old', 'new', 'any', 'any', 'any'])
        for i in sorted(self.dirty):
            at = slice(i * BLOCK, min((i + 1) * BLOCK, len(disk)))
            old, new = bytes(disk[at]), bytes(self.data[at])
            disk[at] = old if mode == 'old' else new if mode == 'new' else torn(rng, old, new)
        if not self.synced:
            del disk[rng.randrange(len(disk) + 1):]
        return bytes(disk)


class Dir:
    def __init__(self):
        self.names = {}
        self.stable = {}
        self.pending = []           # ('add', name, node), ('del', name), ('ren', name, name)

    def do(self, op):
        apply_op(self.names, op)
        self.pending.append(op)

    def sync(self):
        self.stable = dict(self.names)
        self.pending = []

    def left(self, rng):
        names = dict(self.stable)
        mode = rng.choice(['none', 'all', 'first', 'any', 'any'])
        upto = rng.randrange(len(self.pending) + 1)
        for n, op in enumerate(self.pending):
            if mode == 'all' or mode == 'first' and n < upto or mode == 'any' and rng.random() < 0.5:
                apply_op(names, op)
        return names


def apply_op(names, op):
    if op[0] == 'add':
        names[op[1]] = op[2]
    elif op[0] == 'del':
        names.pop(op[1], None)
    elif op[1] in names:
        names[op[2]] = names.pop(op[1])


class System:
    """The disk, and the system's memory over it. Paths are relative to the working directory, which lasts."""

    def __init__(self, seed, deaf):
        self.root = Dir()
        self.fds = {}
        self.opened = {}
        self.rng = random.Random(seed)
        self.deaf = deaf

    def find(self, path):
        node = self.root
        for part in parts_of(path):
            node = node.names.get(part) if isinstance(node, Dir) else None
        return node

    def place(self, path):
        parts = parts_of(path)
        node = self.root
        for part in parts[:-1]:
            node = node.names[part]
        return node, parts[-1]

    def is_deaf(self, fd):
        if self.deaf not in DEAF_PATHS:
            return False
        of_names = isinstance(self.fds[fd], Dir)
        return of_names == (self.deaf == 'names') and self.opened[fd].startswith(DEAF_PATHS[self.deaf])

    def step(self, event):
        kind = event[0]
        if kind == 'mkdir':
            where, name = self.place(event[1])
            where.do(('add', name, Dir()))
        elif kind == 'open':
            path, flags, fd = event[1:]
            node = self.find(path)
            if node is None or 'O_TRUNC' in flags and len(node.data) > 0:
                node = File()       # of one that is cut short, what was in it is left by a cut, or isn't
                where, name = self.place(path)
                where.do(('add', name, node))
            self.fds[fd] = node
            self.opened[fd] = os.path.normpath(path)
        elif kind == 'close':
            self.fds.pop(event[1], None)
        elif kind == 'write':
            self.fds[event[1]].write(event[2], event[3])
        elif kind == 'sync' and not self.is_deaf(event[1]):
            node = self.fds[event[1]]
            if event[2]:
                node.sync()
            elif isinstance(node, File):
                node.fail_sync(self.rng)
        elif kind == 'reread':
            self.fds[event[1]].reread()
        elif kind == 'rename':
            where, name = self.place(event[1])
            where.do(('ren', name, self.place(event[2])[1]))
        elif kind == 'unlink':
            where, name = self.place(event[1])
            where.do(('del', name))

    def stop(self):
        self.fds = {}

    def write_out(self, base, reread=()):
        """The files as the system reads them."""
        write_dir(base, self.root.names, lambda d: d.names,
                  lambda f: bytes(f.stable) if f in reread else bytes(f.data))

    def cut(self, base, rng):
        """The files that a power cut leaves."""
        write_dir(base, self.root.left(rng), lambda d: d.left(rng), lambda f: f.left(rng))

    def liars(self):
        return [f for f in files_of(self.root) if f.lies()]


def files_of(where):
    for node in where.names.values():
        if isinstance(node, Dir):
            yield from files_of(node)
        else:
            yield node


def write_dir(base, names, of_dir, of_file):
    os.makedirs(base, exist_ok=True)
    for name, node in names.items():
        path = os.path.join(base, name)
        if isinstance(node, Dir):
            write_dir(path, of_dir(node), of_dir, of_file)
        else:
            with open(path, 'wb') as f:
                f.write(of_file(node))


def parts_of(path):
    path = os.path.normpath(path)
    return [] if path == '.' else path.split('/')


# ---------------------------------------------------------------- what was put, and where it was written

class Past:
    """The points that were put, of each series, and the leaves that have the first of them, each with its ordinal."""

    def __init__(self, volumes):
        self.volumes = volumes
        self.points = {}            # of each series, in order
        self.leaves = {}            # of each series: (ordinal, the number of points in this leaf and those before it)
        self.newest = 0             # the ordinal that was written last

    def write(self, block):
        """Takes a block that was written into a volume. Each value is put once, so the leaf's first tells whose it is."""
        kind, _, count, _, number, address, _, length = struct.unpack_from('<BBHIQQQI', block)
        self.newest = address >> 32
        if kind != 1:
            return
        points = spelled(block[64:64 + length])
        [name] = [n for n, all_points in self.points.items() if points[0] in all_points]
        leaves = self.leaves.setdefault(name, [])
        del leaves[number:]
        start = leaves[-1][1] if leaves else 0
        expect(len(leaves) == number and len(points) == count and points == self.points[name][start:start + count],
               f'{name}: leaf {number} has not the points that follow those before it')
        leaves.append((self.newest, start + count))

    def lowest(self):
        """What the lowest live ordinal may be: another ordinal may begin before anything is written into it."""
        return sorted({max(0, self.newest + 1 - self.volumes), max(0, self.newest + 2 - self.volumes)})

    def lost(self, name, low):
        """How many points of a series stand in volumes that were used again."""
        return max([end for ordinal, end in self.leaves.get(name, []) if ordinal < low], default=0)

    def read_as(self, rows, floor):
        """For each lowest ordinal for which these rows are right, how many points of each series a view has then."""
        for low in self.lowest():
            ends = {}
            for name in sorted({*rows, *self.points}):
                lost = self.lost(name, low)
                ends[name] = lost + len(rows.get(name, []))
                if ends[name] == lost and floor.get(name, 0) <= lost:
                    continue        # nothing is left of the series, and nothing else was to be
                whole = [end for _, end in self.leaves.get(name, [])]
                if ends[name] < floor.get(name, 0) or ends[name] not in [0] + whole \
                        or rows.get(name, []) != self.points.get(name, [])[lost:ends[name]]:
                    break
            else:
                yield low, ends

    def rows(self, low, ends):
        """The rows of a view that has so many points of each series."""
        rows = {name: self.points[name][self.lost(name, low):end] for name, end in ends.items() if name in self.points}
        return {name: points for name, points in rows.items() if points}

    def cut(self, ends):
        """Forgets what a stop has lost."""
        for name, end in ends.items():
            if name in self.points:
                del self.points[name][end:]
                self.leaves[name] = [leaf for leaf in self.leaves.get(name, []) if leaf[1] <= end]


def spelled(body):
    """The points of a leaf, as rows have them at scale 0."""
    numbers, number, shift = [], 0, 0
    for byte in body:
        number |= (byte & 127) << shift
        shift += 7
        if byte < 128:
            numbers.append(number)
            number, shift = 0, 0
    points, ts, value = [], 0, 0
    for delta, zigzag in zip(numbers[::2], numbers[1::2]):
        ts += delta
        value += zigzag // 2 if zigzag % 2 == 0 else -(zigzag + 1) // 2
        points.append(b'%d,%d' % (ts, value))
    return points


def put_points(past, rng, series, puts, flushes, wide=False):
    """Puts and flushes behind a past, which gets the points. Gives the stream and what each flush covers."""
    marks, parts = [], []
    serial = sum(map(len, past.points.values()))
    ts = 1 + max([int(p.split(b',')[0]) for v in past.points.values() for p in v], default=0)
    at = rng.sample(range(puts), min(flushes, puts))
    for n in range(puts):
        ts += rng.choice([0, 1, 100, 10 ** 6])
        value = rng.randrange(-2 ** 62, 2 ** 62) if wide else rng.randrange(-5, 5) * 10 ** 6 + serial + n
        name = f'm host={rng.randrange(series)}'
        parts.append(b'+%s\r\n:%d\r\n:%d\r\n' % (name.encode(), ts, value))
        past.points.setdefault(name, []).append(b'%d,%d' % (ts, value))
        if n in at or n == puts - 1:
            parts.append(b'+!flush\r\n')
            marks.append({name: len(points) for name, points in past.points.items()})
    return b''.join(parts), marks


# ---------------------------------------------------------------- the program under strace

LINE = re.compile(r'^(\w+)\((.*)\)\s+= (-?\d+|\?)(?: ([A-Z]+))?')
TEXT = re.compile(r'"((?:\\x[0-9a-f]{2})*)"')


def unhex(text):
    return bytes.fromhex(text.replace('\\x', ''))


def inside(path):
    """Whether a path is below the working directory, or is it."""
    return not os.path.isabs(path) and not os.path.normpath(path).startswith('..')


def events_of(trace):
    """The calls on the store, in order: ('told', bytes) for what was written to standard output."""
    ours = {}
    for line in trace:
        if line.startswith(('+++', '---')):
            continue
        m = LINE.match(line)
        expect(m, 'no call: ' + line[:200])
        call, args, answer = m.group(1), m.group(2), m.group(3)
        if answer == '?':
            continue
        answer = int(answer)
        texts = [unhex(t) for t in TEXT.findall(args)]
        first = args.split(',')[0]
        fd = int(first) if first.lstrip('-').isdigit() else None
        if call in OTHER or call == 'ftruncate':
            expect(fd not in ours and not any(inside(t.decode('utf-8', 'replace')) for t in texts),
                   'a call that is not replayed: ' + line[:200])
        elif call == 'openat':
            path = texts[0].decode()
            ours.pop(answer, None)
            if answer >= 0 and inside(path):
                ours[answer] = path
                expect(answer > 2, f'{path} has descriptor {answer}')
                yield ('open', path, args.split(',')[2], answer)
        elif call == 'close' and fd in ours:
            del ours[fd]
            yield ('close', fd)
        elif call == 'pwrite64' and fd in ours and answer > 0:
            yield ('write', fd, texts[0][:answer], int(args.split(',')[-1]))
        elif call == 'write' and answer > 0:
            expect(fd not in ours, 'a write without a place: ' + line[:200])
            if fd == 1:
                yield ('told', texts[0][:answer])
        elif call in ('fsync', 'fdatasync') and fd in ours:
            yield ('sync', fd, answer == 0)
        elif call == 'fadvise64' and fd in ours and 'DONTNEED' in args:
            yield ('reread', fd)
        elif call == 'pread64' and fd in ours:
            yield ('read', fd)
        elif call == 'mkdir' and answer == 0:
            yield ('mkdir', texts[0].decode())
        elif call == 'rename' and answer == 0:
            yield ('rename', texts[0].decode(), texts[1].decode())
        elif call == 'unlink' and answer == 0:
            yield ('unlink', texts[0].decode())


def rows_of(told):
    rows = {}
    m = re.match(rb'\$(\d+)\r\n', told)
    if m:
        text = told[m.end():m.end() + int(m.group(1))]
        for line in text.splitlines():
            name, point = line.split(b',', 1)
            rows.setdefault(name.decode(), []).append(point)
    return rows


class Unexpected(Exception):
    """The run can't go on: the program did otherwise with no cut at all, or made a call that isn't replayed."""


def expect(condition, text):
    if not condition:
        raise Unexpected(text)


class Checker:
    def __init__(self, program, work, seed, deaf):
        self.program = os.path.abspath(program)
        self.work = work
        self.rng = random.Random(seed)
        self.deaf = deaf
        self.images = 0
        self.bad = []
        self.number = 0
        self.creating = None        # the calls of `create`, which are the same each time

    def fresh(self):
        self.number += 1
        path = os.path.join(self.work, f'n{self.number}')
        os.mkdir(path)
        return path

    def record(self, words, data, base, inject=None):
        """Runs the program in `base`, and gives its calls, its status and what it told."""
        trace = os.path.join(self.work, 'trace')
        line = ['strace', '-o', trace, '-xx', '-s', '5000', '-e', 'trace=' + ','.join(KNOWN + OTHER), '-e', 'signal=none']
        if inject:
            line += ['-e', inject]
        done = subprocess.run(line + [self.program] + words, cwd=base, input=data, stdout=subprocess.PIPE,
                              stderr=subprocess.PIPE)
        with open(trace) as file:
            lines = file.read().splitlines()
        events = list(events_of(lines))
        if self.deaf == 'drops':
            events = [e for e in events if e[0] != 'reread']
        # The loader's own reads, and whether a call was made to fail.
        self.foreign = sum(line.startswith('pread64') for line in lines) - sum(e[0] == 'read' for e in events)
        self.injected = any('(INJECTED)' in line for line in lines)
        return events, done.returncode, done.stdout

    def plain(self, words, data, base):
        done = subprocess.run([self.program] + words, cwd=base, input=data, stdout=subprocess.PIPE,
                              stderr=subprocess.PIPE)
        return done.returncode, done.stdout

    def rows(self, base):
        """The status of a run with a query, and the points of each series."""
        status, told = self.plain(['run', 'd'], QUERY, base)
        return status, rows_of(told), told

    def image(self, system, floor, past, made, where, again):
        """Opens one disk that a power cut leaves."""
        self.images += 1
        base = self.fresh()
        system.cut(base, self.rng)
        fault = self.fault(base, floor, past, made, again)
        if fault:
            self.bad.append(f'{where}: {fault}')
        shutil.rmtree(base)

    def fault(self, base, floor, past, made, again):
        status, rows, told = self.rows(base)
        if status == 8 and not made:
            # What stopped has left no store. So it can be made.
            if again:
                status, told = self.plain(['create', 'd'] + SMALL, b'', base)
                if status != 0:
                    return f'create again has status {status}, told {told[-60:]!r}'
            return None
        if status != 0:
            return f'status {status}, told {told[-60:]!r}'
        readings = list(past.read_as(rows, floor))
        if not readings:
            return f'{rows_in_short(rows)} are none that a view from {floor} on may have'
        if again:
            status, told = self.plain(['run', 'd'], LATE[2], base)
            if (status, told) != (0, b'+OK\r\n'):
                return f'one point more has status {status}, told {told[-60:]!r}'
            status, after, told = self.rows(base)
            # The point may take a new ordinal, which leaves no room for the oldest.
            wanted = [past.rows(low + more, ends) for low, ends in readings for more in (0, 1)]
            for rows in wanted:
                rows.setdefault(LATE[0], []).append(LATE[1])
            if status != 0 or after not in wanted:
                return f'with one point more {rows_in_short(after)} are there, status {status}'
        return None

    def walk(self, name, system, events, share, floor, past, made, marks=()):
        """Cuts the power behind the calls, a share of them, and moves the system on. `marks` has what each `+OK` covers."""
        told = 0
        for n, event in enumerate(events):
            if event[0] == 'told':
                told += event[1].count(b'+')
                if told:
                    floor = marks[told - 1]
                    made = True
            else:
                system.step(event)
                if event[0] == 'write' and system.opened[event[1]].startswith('d/vol') and past.points:
                    past.write(event[2])
            if event[0] in ('open', 'close', 'read', 'reread') and self.rng.random() < 0.8:
                continue
            if self.rng.random() < share:
                self.image(system, floor, past, made, f'{name}, call {n} ({event[0]})', self.rng.random() < 0.15)
        system.stop()
        return floor, made


def rows_in_short(rows):
    return {name: len(points) for name, points in sorted(rows.items())}


# ---------------------------------------------------------------- the runs

def made_store(check, words, share, name):
    """The system and the past of a new store."""
    system, past = System(check.rng.random(), check.deaf), Past(int(words[1]))
    if not check.creating:
        base = check.fresh()
        check.creating, status, told = check.record(['create', 'd'] + words, b'', base)
        shutil.rmtree(base)
        expect(status == 0, f'{name}: create has status {status}, told {told!r}')
    check.walk(f'{name}, create', system, check.creating, share, {}, past, False)
    return system, past


def served(check, system, past, stream, share, name, floor, made=True, status=0, inject=None, killed=False):
    """Serves a stream on what the system reads, and cuts the power behind its calls. Or it is killed behind some of them."""
    data, marks = stream
    base = as_read(check, system)
    events, got, told = check.record(['run', 'd'], data, base, inject)
    shutil.rmtree(base)
    if status is not None:
        expect(got == status, f'{name}: status {got}, told {told[-60:]!r}')
    if killed:
        events = events[:check.rng.randrange(len(events))]
    floor, made = check.walk(name, system, events, share, floor, past, made, marks)
    return floor, got


def as_read(check, system):
    """The files as the next run reads them: of those that it has the system give up before it reads, as the disk has them."""
    base = check.fresh()
    system.write_out(base)
    if system.liars():
        events, _, _ = check.record(['run', 'd'], b'', base)
        shutil.rmtree(base)
        base = check.fresh()
        system.write_out(base, [system.find(path) for path in reread_paths(events)])
    return base


def reread_paths(events):
    paths, seen = {}, {}
    for e in events:
        if e[0] == 'open':
            paths[e[3]] = e[1]
        elif e[0] in ('reread', 'read'):
            seen.setdefault(paths[e[1]], e[0])
    return [path for path, kind in seen.items() if kind == 'reread']


def opened_again(check, system, past, floor, name):
    """What a run on what the system reads tells. The past becomes what it has. Gives whether that is right."""
    base = as_read(check, system)
    status, rows, told = check.rows(base)
    shutil.rmtree(base)
    readings = list(past.read_as(rows, floor)) if status == 0 else []
    if not readings:
        check.bad.append(f'{name}: opened with status {status}, {rows_in_short(rows)}, told {told[-60:]!r}')
        return False
    past.cut(readings[0][1])
    return True


def plain_runs(check, share):
    system, past = made_store(check, SMALL, share, 'plain')
    floor = {}
    for n in range(2):
        stream = put_points(past, check.rng, 4, 12, 4)
        floor, _ = served(check, system, past, stream, share, f'plain, run {n + 1}', floor)


def wide_leaves(check, share):
    system, past = made_store(check, WIDE, share / 4, 'wide')
    served(check, system, past, put_points(past, check.rng, 3, 3000, 3, wide=True), share, 'wide', {})


def reused_volumes(check, share):
    """Nearly each point closes a leaf, so that the volumes are used up, and the oldest is used again and again."""
    system, past = made_store(check, SMALL, share / 4, 'reused')
    floor = {}
    for n in range(3):
        stream = put_points(past, check.rng, 5, 50, 8)
        floor, _ = served(check, system, past, stream, share / 2, f'reused, run {n + 1}', floor)
        opened_again(check, system, past, floor, f'reused, run {n + 1}')
    expect(past.newest >= 4 and any(past.lost(name, past.newest - 1) for name in past.points),
           'reused: volumes are used again')


def killed_creates(check, share, kills):
    """`create` is killed, called again, and the store is served."""
    base = check.fresh()
    events, _, _ = check.record(['create', 'd'] + SMALL, b'', base)
    shutil.rmtree(base)
    first = next(n for n, e in enumerate(events) if e[0] == 'mkdir') + 1
    points = [first] + sorted(check.rng.sample(range(first, len(events)), kills - 1))
    points += [n + 1 for n, e in enumerate(events) if e[0] == 'rename'][:1]
    points += [n + 1 for n, e in enumerate(events) if e[0] == 'write'][-1:]
    for point in points:
        name = f'create killed behind call {point}'
        system, past = System(check.rng.random(), check.deaf), Past(2)
        for event in events[:point]:
            if event[0] != 'told':
                system.step(event)
        system.stop()
        base = check.fresh()
        system.write_out(base)
        again, status, told = check.record(['create', 'd'] + SMALL, b'', base)
        shutil.rmtree(base)
        expect(status in (0, 9), f'{name}: again has status {status}, told {told!r}')
        check.walk(name, system, again, share / 8, {}, past, False)
        served(check, system, past, put_points(past, check.rng, 3, 4, 2), share / 2, name + ', run', {})


def killed_runs(check, share, kills):
    """A run is killed, and another goes on from what the system reads, until a volume was used again at least."""
    system, past = made_store(check, SMALL, 0, 'killed')
    floor, n = {}, 0
    while n < kills or past.newest < 2 and n < 8 * kills:
        n += 1
        name = f'killed, run {n}'
        stream = put_points(past, check.rng, 3, 9, 2)
        floor, _ = served(check, system, past, stream, share / 2, name, floor, killed=True)
        if not opened_again(check, system, past, floor, name):
            return
    expect(past.newest >= 2, 'killed: a volume is used again')


def failed_calls(check, share, call, most, before, step=1):
    """Each sync, write or read of a run fails in turn, and the run ends. The next one serves on, and the power is cut."""
    n, count = 1 - step, 1
    while n + step <= count and n + step <= most:
        n += step
        name = f'{call} {n} fails behind {before} points'
        system, past = made_store(check, SMALL, 0, name)
        floor, _ = served(check, system, past, put_points(past, check.rng, 3, before, 2), 0, name, {})
        stream = put_points(past, check.rng, 3, 4, 2)
        if n == 1:
            where = check.fresh()
            system.write_out(where)
            events, _, _ = check.record(['run', 'd'], stream[0], where)
            shutil.rmtree(where)
            kind = {'fsync': 'sync', 'pwrite64': 'write', 'pread64': 'read'}[call]
            count = sum(e[0] == kind for e in events)
            skip = check.foreign if kind == 'read' else 0
        floor, status = served(check, system, past, stream, share / 4, name, floor, status=None,
                               inject=f'inject={call}:error=EIO:when={n + skip}')
        if not check.injected:
            break
        if status != 3:
            check.bad.append(f'{name}: status {status}')
        if opened_again(check, system, past, floor, name):
            stream = put_points(past, check.rng, 3, 4, 2)
            served(check, system, past, stream, share, name + ', next run', floor, status=None)


RUNS = [
    ('plain', plain_runs),
    ('wide', wide_leaves),
    ('reused', reused_volumes),
    ('killed creates', lambda check, share: killed_creates(check, share, 6)),
    ('killed runs', lambda check, share: killed_runs(check, share, 12)),
    ('failed syncs', lambda check, share: failed_calls(check, share, 'fsync', 30, 5)),
    ('failed writes', lambda check, share: failed_calls(check, share, 'pwrite64', 30, 5)),
    ('failed reads', lambda check, share: failed_calls(check, share, 'pread64', 10, 5)),
    ('failed syncs, reused', lambda check, share: failed_calls(check, share, 'fsync', 30, 40, step=2)),
    ('failed writes, reused', lambda check, share: failed_calls(check, share, 'pwrite64', 30, 40, step=2)),
]


def main():
    parser = argparse.ArgumentParser(description=__doc__.splitlines()[0])
    parser.add_argument('program')
    parser.add_argument('--seed', type=int, default=1)
    parser.add_argument('--share', type=float, default=0.35, help='the share of the calls behind which the power is cut')
    parser.add_argument('--only', help='the runs whose name begins so')
    parser.add_argument('--deaf', choices=[*DEAF_PATHS, 'drops'],
                        help='a trial of the check itself: syncs of these do nothing, or no page is dropped')
    args = parser.parse_args()
    bad = images = 0
    start = time.time()
    with tempfile.TemporaryDirectory(dir='/dev/shm' if os.path.isdir('/dev/shm') else None) as work:
        for name, run in RUNS:
            if args.only and not name.startswith(args.only):
                continue
            check = Checker(args.program, work, args.seed, args.deaf)
            begun = time.time()
            try:
                run(check, args.share)
            except Unexpected as fault:
                check.bad.append(f'not as expected: {fault}')
            print(f'{name}: {check.images} cuts, {len(check.bad)} bad, {time.time() - begun:.1f} s', flush=True)
            for text in check.bad[:6]:
                print('  ' + text)
            bad += len(check.bad)
            images += check.images
    print(f'{images} cuts, {bad} bad, {time.time() - start:.1f} s')
    sys.exit(3 if bad else 0)


if __name__ == '__main__':
    main()
