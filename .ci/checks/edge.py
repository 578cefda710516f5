#!/usr/bin/env python3
"""Looks at the edge of the real program: what a careless user may do to it, and what it tells then.

edge.py PROGRAM

Closed streams, two programs at once, kills, links and files that are there, a file system without room, directories without
rights, damaged files, and words that are no command. It tells each thing that is otherwise than it should be.
"""

import contextlib
import os
import resource
import shutil
import signal
import subprocess
import sys
import tempfile
import time

PROGRAM = os.path.abspath(sys.argv[1])
PUT = b'+cpu host=a\r\n:%d\r\n:5\r\n+!flush\r\n'
QUERY = b'+!query\r\n$16\r\n{"select":"cpu"}\r\n'
SMALL = '--volumes 2 --blocks 16 --slot 1 --pool 2'.split()
AS_NOBODY = ['setpriv', '--reuid', '65534', '--regid', '65534', '--clear-groups']
bad = count = 0


def check(name, condition, seen=''):
    global bad, count
    count += 1
    if not condition:
        bad += 1
        print(f'otherwise: {name}: {seen!r}')


def akl(*words, data=b'', closed=(), before=None):
    """The status, and what standard output and standard error were told."""
    def start():
        if before:
            before()
        for fd in closed:
            os.close(fd)
    done = subprocess.run([PROGRAM, *words], input=data, stdout=subprocess.PIPE, stderr=subprocess.PIPE, preexec_fn=start)
    return done.returncode, done.stdout, done.stderr.decode('utf-8', 'replace')


def begun(directory, data):
    """A run that has confirmed a flush, and waits for more."""
    process = subprocess.Popen([PROGRAM, 'run', directory], stdin=subprocess.PIPE, stdout=subprocess.PIPE,
                               stderr=subprocess.DEVNULL)
    process.stdin.write(data)
    process.stdin.flush()
    check('a run confirms', process.stdout.read(5) == b'+OK\r\n')
    return process


def points(directory):
    """The status of a query, and how many rows it has."""
    status, told, _ = akl('run', directory, data=QUERY)
    return status, told.count(b',')


def rows(number):
    """What `points` gives of so many points of a series with one tag."""
    return (0, 2 * number)


def streams():
    akl('create', 'd', *SMALL)
    for closed in [(1,), (0,), (2,), (0, 1), (0, 1, 2)]:
        before = points('d')
        status, told, errors = akl('run', 'd', data=PUT % 100, closed=closed)
        wanted = 0 if closed == (2,) else 4
        check(f'run with {closed} closed', status == wanted, (status, told, errors))
        if closed in ((0,), (1,)):
            check('  and tells which stream it is', 'standard' in errors and "isn't open" in errors, errors)
        check('  and leaves a sound store', before <= points('d') and points('d')[0] == 0, (before, points('d')))
    status, _, errors = akl('create', 'all', *SMALL, closed=(0, 1, 2))
    check('create with all closed', status == 0, (status, errors))
    check('  and makes a store', akl('run', 'all')[0] == 0)
    check('no words with the input closed', akl(closed=(0,))[0] == 4)
    check('no words with the output closed', akl(data=QUERY, closed=(1,))[0] == 4)
    with open('/dev/full', 'wb') as full:
        done = subprocess.run([PROGRAM, 'run', 'd'], input=QUERY, stdout=full, stderr=subprocess.PIPE)
    check('an output without room', done.returncode == 4 and b'standard output' in done.stderr, done.stderr)
    reader, writer = os.pipe()
    os.close(reader)
    done = subprocess.run([PROGRAM, 'run', 'd'], input=QUERY, stdout=writer, stderr=subprocess.PIPE)
    os.close(writer)
    check('an output that nobody reads', done.returncode == 4 and b'standard output' in done.stderr,
          (done.returncode, done.stderr))
    done = subprocess.run([PROGRAM, 'run', 'd'], stdin=os.open('.', os.O_RDONLY), stdout=subprocess.PIPE,
                          stderr=subprocess.PIPE)
    check('an input that is a directory', done.returncode == 4 and b'standard input' in done.stderr, done.stderr)


def at_once():
    akl('create', 'two', *SMALL)
    first = begun('two', PUT % 100)
    status, told, errors = akl('run', 'two', data=PUT % 200)
    check('a second run at once', (status, told) == (3, b'akl: disk failed\n'), (status, told, errors))
    check('  says why', 'two' in errors and 'another process' in errors, errors)
    check('create at once', akl('create', 'two')[0] == 3)
    os.symlink('two', 'link')
    check('a second run by a link', akl('run', 'link/.', data=QUERY)[0] == 3)
    first.stdin.write(PUT % 300)
    first.stdin.flush()
    check('the first run goes on', first.stdout.read(5) == b'+OK\r\n')
    os.kill(first.pid, signal.SIGKILL)
    first.wait()
    check('after a kill the next run has all points', points('two') == rows(2), points('two'))
    lost = wrong = 0
    for n in range(20):
        many = [subprocess.Popen([PROGRAM, 'create', f'c{n}', *SMALL], stdout=subprocess.PIPE, stderr=subprocess.PIPE)
                for _ in range(4)]
        statuses = [p.wait() for p in many]
        for p in many:
            p.communicate()
        lost += statuses.count(0) != 1
        wrong += any(s not in (0, 3, 9) for s in statuses) or akl('run', f'c{n}')[0] != 0
    check('of four creates at once one makes the store', (lost, wrong) == (0, 0), (lost, wrong))
    lost = 0
    for n in range(20):
        akl('create', f'r{n}', *SMALL)
        many = [subprocess.Popen([PROGRAM, 'run', f'r{n}'], stdin=subprocess.PIPE, stdout=subprocess.PIPE,
                                 stderr=subprocess.DEVNULL) for _ in range(4)]
        for k, p in enumerate(many):
            with contextlib.suppress(BrokenPipeError):
                p.stdin.write(b'+cpu host=%d\r\n:1\r\n:1\r\n+!flush\r\n' % k)
                p.stdin.flush()
            with contextlib.suppress(BrokenPipeError):
                p.stdin.close()
        confirmed = sum(p.stdout.read().startswith(b'+OK') for p in many)
        for p in many:
            p.wait()
        lost += points(f'r{n}') != rows(confirmed)
    check('of four runs at once no confirmed flush is lost', lost == 0, lost)


def what_is_there():
    os.mkdir('l')
    with open('precious', 'w') as f:
        f.write('kept')
    os.symlink('../precious', 'l/meta.tmp')
    check('create in a directory with a link', akl('create', 'l', *SMALL)[0] == 0)
    check('  follows no link', open('precious').read() == 'kept')
    modes = [oct(os.stat(f'l/{name}').st_mode & 0o777) for name in ('meta', 'vol0001')]
    check('  makes files for the owner alone', modes == ['0o600', '0o600'], modes)
    akl('create', 'v', *SMALL)
    check('the directory is for the owner alone', os.stat('v').st_mode & 0o777 == 0o700)
    os.remove('v/meta')
    kept = open('v/vol0002', 'rb').read()
    with open('v/vol0002', 'wb') as f:
        f.write(b'x' + kept[1:])
    status, told, errors = akl('create', 'v', *SMALL)
    check('create over volumes without meta', status == 3 and 'without meta' in errors, (status, errors))
    check('  leaves them', open('v/vol0002', 'rb').read() == b'x' + kept[1:] and not os.path.exists('v/meta'))
    check('run there', akl('run', 'v')[0] == 8)
    os.mkfifo('fifo')
    start = time.time()
    for word in ('create', 'run'):
        status, told, errors = akl(word, 'fifo')
        check(f'{word}: a pipe in the place of the directory', status == 3 and 'fifo' in errors, (status, errors))
        status, told, errors = akl(word, 'precious')
        check(f'{word}: a file in the place of the directory',
              status == 3 and told == b'akl: disk failed\n' and 'precious' in errors, (status, told, errors))
        status, told, errors = akl(word, 'precious/d')
        check(f'{word}: a file in the place of the parent',
              status == 3 and told == b'akl: disk failed\n' and 'precious' in errors, (status, told, errors))
        check(f'{word}: a directory at an end of links', akl(word, 'd/../l/../link')[0] == (9 if word == 'create' else 0))
    check('  waits for nothing', time.time() - start < 20)
    check('  keeps the file', open('precious').read() == 'kept')
    status, _, errors = akl('create', '')
    check('the empty word is no directory', status == 3 and not os.path.exists('/meta') and 'directory ``' in errors,
          (status, errors))
    os.mkdir('here')
    os.chdir('here')
    check('create in .', akl('create', '.', *SMALL)[0] == 0 and akl('run', '.')[0] == 0)
    os.chdir('..')
    os.symlink('gone', 'dangling')
    status, _, errors = akl('create', 'dangling', *SMALL)
    check('a link to nowhere', status == 3 and 'dangling' in errors and not os.path.exists('gone'), (status, errors))
    check('  run there', akl('run', 'dangling')[0] == 8)


def damaged_files():
    """Files that were cut, taken away or taken for others: a store that can't be served says so, and isn't changed."""
    akl('create', 's', *SMALL)
    akl('run', 's', data=PUT % 100)
    whole = {name: open(f's/{name}', 'rb').read() for name in os.listdir('s')}

    def store(directory, **changes):
        os.mkdir(directory)
        for name, data in {**whole, **changes}.items():
            if data is not None:
                with open(f'{directory}/{name}', 'wb') as f:
                    f.write(data)

    for name, changes, wanted, line in [
            ('no_meta', {'meta': None}, 8, b'akl: no store\n'),
            ('empty_meta', {'meta': b''}, 8, b'akl: no store\n'),
            ('short_meta', {'meta': whole['meta'][:8192]}, 8, b'akl: no store\n'),
            ('closed_gates', {'meta': bytes(8192) + whole['meta'][8192:]}, 8, b'akl: no store\n'),
            ('no_payload', {'meta': whole['meta'][:8192] + bytes(len(whole['meta']) - 8192)}, 2, None),
            ('no_volume', {'vol0002': None}, 2, b'akl: damaged file 2 block 0\n'),
            ('no_first_volume', {'vol0001': None}, 2, b'akl: damaged file 1 block 0\n'),
            ('short_volume', {'vol0001': whole['vol0001'][:8191]}, 2, b'akl: damaged file 1 block 1\n'),
            ('zero_volume', {'vol0001': bytes(len(whole['vol0001']))}, 2, b'akl: damaged file 1 block 0\n')]:
        store(name, **changes)
        status, told, errors = akl('run', name, data=QUERY)
        check(name, status == wanted and (told == line or line is None), (status, told, errors))
        after = {file: open(f'{name}/{file}', 'rb').read() for file in os.listdir(name)}
        check(f'{name} is left as it is', after == {k: v for k, v in {**whole, **changes}.items() if v is not None})
        if wanted == 2:
            check(f'{name}: create', akl('create', name, *SMALL)[0] == 9)
    os.mkdir('odd')
    os.mkdir('odd/meta')
    status, told, errors = akl('run', 'odd')
    check('a directory in the place of meta', (status, told) == (3, b'akl: disk failed\n') and 'odd/meta' in errors,
          (status, told, errors))


def without_room():
    """A full disk, as a limit on the length of files: nothing that was confirmed is lost, and what failed is told."""
    def limited(most):
        signal.signal(signal.SIGXFSZ, signal.SIG_IGN)
        resource.setrlimit(resource.RLIMIT_FSIZE, (most, most))

    for most in (0, 4096, 10000, 16384, 40000):
        status, told, errors = akl('create', f'full{most}', *SMALL, before=lambda: limited(most))
        check(f'create with room for {most} bytes', status == 3 and told == b'akl: disk failed\n'
              and "can't be made" in errors and 'File too large' in errors, (status, told, errors))
        check('  leaves no part of a file', not [n for n in os.listdir(f'full{most}') if n.endswith('.tmp')])
        status, _, errors = akl('create', f'full{most}', *SMALL)
        check('  is done once there is room', status == 0 and akl('run', f'full{most}')[0] == 0, (status, errors))
    akl('create', 'held', *SMALL)
    akl('run', 'held', data=PUT % 100)
    for most in (0, 4096, 16384):
        status, told, errors = akl('run', 'held', data=PUT % 200, before=lambda: limited(most))
        if status == 0:
            check(f'run with room for {most} bytes', told == b'+OK\r\n', told)
        else:
            check(f'run with room for {most} bytes', status == 3 and b'+OK' not in told and "can't be written" in errors,
                  (status, told, errors))
        seen = points('held')
        check('  keeps what was confirmed', seen >= rows(1), seen)


def with_few_descriptors():
    """What can't be opened is told, wherever that happens."""
    for most in range(3, 12):
        limit = (most, most)
        status, told, errors = akl('run', 'held', data=QUERY, before=lambda: resource.setrlimit(resource.RLIMIT_NOFILE, limit))
        if status == 127:
            continue        # the program itself isn't loaded
        check(f'{most} descriptors', status == 0 or status in (3, 4) and 'Too many open files' in errors,
              (status, told, errors))
    check('  changes nothing', points('held')[0] == 0)


def without_rights():
    """Who isn't the owner, or took the rights away. The rights of root are given up first."""
    shutil.copy(PROGRAM, 'program')
    os.chmod('.', 0o755)
    under = []
    if os.geteuid() == 0:
        under = AS_NOBODY
        if not shutil.which(under[0]) or subprocess.run([*under, './program', 'frob'], stdout=subprocess.DEVNULL,
                                                        stderr=subprocess.DEVNULL).returncode != 1:
            print('no other user can be taken here: calls without rights are left out')
            return
    akl('create', 'mine', *SMALL)
    akl('create', 'open', *SMALL)
    os.mkdir('others')
    modes = [('mine', 0o700 if under else 0), ('open', 0o755), ('open/meta', 0o600 if under else 0), ('others', 0o555)]
    for name, mode in modes:
        os.chmod(name, mode)
    for words, part in [(['create', 'others/d'], 'others/d'), (['create', 'others'], 'others'), (['run', 'mine'], 'mine'),
                        (['create', 'mine'], 'mine'), (['run', 'open'], 'open/meta'), (['create', 'open'], 'open/meta')]:
        done = subprocess.run([*under, './program', *words], input=QUERY, stdout=subprocess.PIPE, stderr=subprocess.PIPE)
        check(f'{words} without rights', (done.returncode, done.stdout) == (3, b'akl: disk failed\n')
              and part.encode() in done.stderr and b'Permission denied' in done.stderr, done)
    for name, mode in modes:
        os.chmod(name, 0o700)
    check('  changes nothing', os.listdir('others') == [] and akl('run', 'mine')[0] == akl('run', 'open')[0] == 0)


def words():
    usage = b'usage: akl [create|run|serve|soak DIR [options]]\n'
    for typed, part in [
            (['make', 'x'], '`make` is no command'), (['create'], 'directory is missing'), (['run'], 'directory is missing'),
            (['run', 'x', 'y'], '`y`'), (['create', 'x', '--blocks'], '`--blocks` needs a number'),
            (['create', 'x', '--blocks', '15'], 'from 16 to 1048576'), (['create', 'x', '--volume', '3'], '`--volume` is no'),
            (['create', 'x', '--slot', '1', '--slot', '2'], 'twice'), (['create', 'x', '--scale', '+5'], 'from 0 to 9'),
            (['create', 'x', '--pool', ''], 'from 1 to 4096'), (['create', 'x', '--pool', '00000000001'], 'from 1 to 4096'),
            (['create', 'x', '--every=3'], '`--every=3` is no'), (['create', '--pool', '3', 'x'], '`3` is no'),
            (['--help'], '`--help` is no command'), (['Run', 'x'], '`Run` is no command'), ([''], '`` is no command'),
            (['serve', 'x'], '`serve` is no command')]:
        status, out, errors = akl(*typed)
        check(f'{typed}', status == 1 and out == usage and part in errors and 'akl create DIR' in errors,
              (status, out, errors))
    status, out, errors = akl(os.fsdecode(b'ru\xff'), 'x')
    check('a word that is no text', status == 1 and out == usage and 'akl create DIR' in errors, (status, out, errors))
    check('  makes nothing', not os.path.exists('x'))
    status, out, errors = akl('create', 'nowhere/d')
    check('no parent', (status, out) == (3, b'akl: disk failed\n') and 'directory `nowhere/d`' in errors
          and 'No such file' in errors, (status, out, errors))
    status, out, errors = akl('create', 'long' * 100)
    check('a name that is too long', (status, out) == (3, b'akl: disk failed\n') and 'too long' in errors,
          (status, out, errors))


def main():
    with tempfile.TemporaryDirectory() as work:
        os.chdir(work)
        for part in (streams, at_once, what_is_there, damaged_files, without_room, with_few_descriptors, without_rights, words):
            part()
        os.chdir('/')
    print(f'{count} looks at the edge, {bad} otherwise')
    sys.exit(1 if bad else 0)


main()
