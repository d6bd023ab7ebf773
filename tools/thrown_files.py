"""Trouble with files, for tools/throw-mutations: disks that are full, pipes that close, files that vanish, grow or are no files.

Each kind of trouble is a function of a bench, which has the program, a folder and a seed. It returns its findings. All of them
take a seed whose policy and capture head are good, so that OUT and REPORT are due.
"""

import itertools
import os
import random
import resource
import shutil
import signal
import subprocess
import threading
import time
import typing

import thrown_cases
import thrown_runs
from thrown_runs import Due, Ended

FULL, ENDLESS, NOTHING, BROKEN = '/dev/full', '/dev/zero', os.devnull, '/proc/self/mem'
READ_AHEAD = 65_536
NOBODY = 65534


class Bench(typing.NamedTuple):
    program: str
    folder: thrown_runs.Folder
    rng: random.Random
    seed: thrown_cases.Seed
    due: Due
    options: list
    env: dict
    limit: float
    came: list  # the results of its runs

    def run(self, actions=(), prints=True, **names):
        self.folder.put(*self.seed)
        words = self.folder.words(*self.options, **names)
        came = thrown_runs.run(self.program, words, self.folder, self.env, self.limit, actions)
        self.kept(came if prints else came._replace(note=None))
        return came

    def kept(self, came):
        """Keeps a result, for later checks. A program that the loader can't start is no run."""
        if came.status != 127:
            self.came.append(came)
        return came

    def start(self):
        return thrown_runs.started(self.program, self.folder.words(*self.options), self.folder, self.env)

    def ended(self, process, begun):
        return self.kept(thrown_runs.ended(process, self.folder, self.limit, begun))

    def with_capture(self, capture):
        seed = self.seed._replace(capture=capture)
        return self._replace(seed=seed, due=thrown_runs.due_of_run(*seed))


def long_capture(bench, bytes_at_least=140_000):
    """The bench with its records repeated, so that pieces of 64 KiB are written before the end. It has no options, because
    threads for each of thousands of small bursts would take seconds."""
    capture = bench.seed.capture
    ends = thrown_cases.ends_of(capture)
    records = capture[ends[0] : ends[-1]] or thrown_cases.some_part(capture)
    return bench._replace(options=[]).with_capture(capture[: ends[0]] + records * (bytes_at_least // len(records) + 1))


def faulty(bench, came, status, note):
    """Findings if the run doesn't end with this fault, or a file isn't a front part of what is due."""
    if (came.status, came.note) != (status, note):
        yield f'ended with status {came.status} and printed {came.note!r}; due are status {status} and {note!r}'
    yield from thrown_runs.no_fronts(came, bench.due)


def absent(came, *slots):
    for slot in slots:
        if getattr(came, slot) is not None:
            yield f'{slot} was made'


# Full disks.


def full_disk(bench):
    """A limit on the bytes of a file. A write past it is refused, because its signal is ignored."""
    if bench.rng.randrange(8) == 0:
        bench = long_capture(bench)
    longest = max(len(bench.due.out), len(bench.due.report))
    limit = bench.rng.choice([0, 24, bench.rng.randrange(longest + 2), longest - 1, longest])
    over = [slot for slot in ('out', 'report') if len(getattr(bench.due, slot)) > limit]
    came = confined(bench, resource.RLIMIT_FSIZE, limit)
    if not over:
        yield from thrown_runs.unlike(came, bench.due)
        return
    if came.status != 5 or came.note not in [f'write fault: {slot}\n' for slot in over]:
        yield f'with a limit of {limit} bytes it ended with status {came.status} and printed {came.note!r}; too long: {over}'
    yield from thrown_runs.no_fronts(came, bench.due)


def confined(bench, kind, limit, **more):
    """A run with a limit of the system. Its line goes through a pipe, which isn't limited."""

    def confine():
        signal.signal(signal.SIGXFSZ, signal.SIG_IGN)
        resource.setrlimit(kind, (limit, resource.getrlimit(kind)[1]))

    bench.folder.put(*bench.seed)
    bench.folder.clear()
    return piped(bench, bench.folder.words(*bench.options), preexec_fn=confine, restore_signals=False, **more)


def piped(bench, words, stdin=subprocess.DEVNULL, feed=None, **more):
    """A run whose standard output and error are pipes; `feed` is called with its standard input in a thread."""
    begun = time.monotonic()
    pipes = {'stdin': stdin, 'stdout': subprocess.PIPE, 'stderr': subprocess.PIPE, 'bufsize': 0}
    with subprocess.Popen([bench.program, *words], env=bench.env, **pipes, **more) as process:
        feeder = threading.Thread(target=feed, args=(process.stdin,)) if feed else None
        if feeder:
            feeder.start()
        ender = threading.Timer(bench.limit, process.kill)
        ender.start()
        note, told = process.stdout.read(), process.stderr.read()
        status = process.wait()
        ender.cancel()
        if feeder:
            feeder.join()
    seconds = time.monotonic() - begun
    files = [thrown_runs.contents(name) if os.path.isfile(name) else None for name in (bench.folder.out, bench.folder.report)]
    note, told = (text.decode('utf-8', 'backslashreplace') for text in (note, told))
    return bench.kept(Ended(status, note, told, *files, seconds, seconds < bench.limit))


def full_device(bench):
    """A device that takes nothing in place of OUT, REPORT or standard output."""
    slot = bench.rng.choice(['out', 'report', 'note'])
    if slot == 'note':
        came = bench.run([(os.POSIX_SPAWN_OPEN, 1, FULL, os.O_WRONLY, 0)], prints=False)
        yield from thrown_runs.unlike(came, bench.due._replace(status=bench.due.status or 5, note=''))
    else:
        yield from faulty(bench, bench.run(**{slot: FULL}), 5, f'write fault: {slot}\n')


# Pipes.


def closed_streams(bench):
    """A run without standard input, output or error. No file may be opened in place of one of them."""
    closed = bench.rng.choice([[0], [1], [2], [0, 1], [1, 2], [0, 1, 2]])
    came = bench.run([(os.POSIX_SPAWN_CLOSE, number) for number in closed], prints=1 not in closed)
    due = bench.due._replace(status=bench.due.status or 5, note='') if 1 in closed else bench.due
    yield from thrown_runs.unlike(came, due)


def closed_note(bench):
    """Standard output is a pipe whose reader has closed it."""
    reader, writer = os.pipe()
    os.close(reader)
    os.set_inheritable(writer, True)
    try:
        came = bench.run([(os.POSIX_SPAWN_DUP2, writer, 1)], prints=False)
    finally:
        os.close(writer)
    yield from thrown_runs.unlike(came, bench.due._replace(status=bench.due.status or 5, note=''))


def closed_fifo(bench):
    """OUT or REPORT is a fifo whose reader closes it after some bytes."""
    slot = bench.rng.choice(['out', 'report'])
    bench = long_capture(bench) if bench.rng.randrange(5) == 0 else bench
    due, name = getattr(bench.due, slot), getattr(bench.folder, slot)
    most = bench.rng.choice([1, 10, bench.rng.randrange(len(due)) + 1, len(due)])
    bench.folder.put(*bench.seed)
    bench.folder.clear()
    os.mkfifo(name)
    reader = os.open(name, os.O_RDONLY | os.O_NONBLOCK)
    begun = time.monotonic()
    process = bench.start()
    taken = b''
    while len(taken) < most and not has_ended(process) and time.monotonic() < begun + bench.limit:
        try:
            piece = os.read(reader, most - len(taken))
        except BlockingIOError:
            piece = b''
        taken += piece
        if not piece:
            time.sleep(0.0002)
    os.close(reader)
    came = bench.ended(process, begun)
    if not due.startswith(taken):
        yield f'{slot} gave {len(taken)} bytes, which are not a front part of what is due'
    if (came.status, came.note) not in [(5, f'write fault: {slot}\n'), (bench.due.status, bench.due.note)]:
        yield f'{slot} lost its reader: status {came.status}, printed {came.note!r}'
    yield from thrown_runs.no_fronts(came, bench.due)


def has_ended(process):
    """Whether a process has ended. Its status stays for a later wait."""
    return os.waitid(os.P_PID, process, os.WEXITED | os.WNOHANG | os.WNOWAIT) is not None


def in_pieces(bench):
    """POLICY or CAPTURE comes through standard input, in pieces of any size with pauses between them, and may be cut."""
    slot = bench.rng.choice(['policy', 'capture'])
    data = getattr(bench.seed, slot)
    seed = bench.seed._replace(**{slot: data[: bench.rng.choice([len(data), bench.rng.randrange(len(data) + 1)])]})
    bench = bench._replace(seed=seed, due=thrown_runs.due_of_run(*seed))
    data = getattr(seed, slot)
    size = bench.rng.choice([1, 7, 24, 1000]) if len(data) < 3000 else 997

    def feed(pipe):
        try:
            for place in range(0, len(data), size):
                pipe.write(data[place : place + size])
            pipe.close()
        except BrokenPipeError:
            pass

    bench.folder.put(*seed)
    bench.folder.clear()
    came = piped(bench, bench.folder.words(*bench.options, **{slot: '/dev/stdin'}), stdin=subprocess.PIPE, feed=feed)
    yield from thrown_runs.unlike(came, bench.due)


# Files that are missing, or are no files.


def vanished(bench):
    """CAPTURE or the folder of OUT is removed while the policy is being read."""
    gone = bench.rng.choice(['capture', 'folder'])
    folder = bench.folder.path / 'below'
    folder.mkdir(exist_ok=True)

    def feed(pipe):
        pipe.write(bench.seed.policy)
        if gone == 'capture':
            os.unlink(bench.folder.capture)
        else:
            folder.rmdir()
        pipe.close()

    bench.folder.put(*bench.seed)
    bench.folder.clear()
    names = {'out': str(folder / 'out')} if gone == 'folder' else {}
    came = piped(bench, bench.folder.words(*bench.options, policy='/dev/stdin', **names), stdin=subprocess.PIPE, feed=feed)
    status, note = (4, 'read fault: capture\n') if gone == 'capture' else (5, 'write fault: out\n')
    yield from faulty(bench, came, status, note)
    yield from absent(came, 'out', 'report')


def unlinked(bench):
    """A name of no file, a link to no file, a name that is too long, a file in place of a folder."""
    slot = bench.rng.choice(['policy', 'capture'])
    link = str(bench.folder.path / 'link')
    if not os.path.lexists(link):
        os.symlink('nowhere', link)
    name = bench.rng.choice([str(bench.folder.path / 'nowhere'), link, 'n' * 300, '/' + 'n/' * 3000, bench.folder.policy + '/policy'])
    came = bench.run(**{slot: name})
    yield from faulty(bench, came, 4, f'read fault: {slot}\n')
    yield from absent(came, 'out', 'report')


def folder_for_a_file(bench):
    slot = bench.rng.choice(['policy', 'capture', 'out', 'report'])
    came = bench.run(**{slot: str(bench.folder.path)})
    reads = slot in ('policy', 'capture')
    yield from faulty(bench, came, 4 if reads else 5, f'{"read" if reads else "write"} fault: {slot}\n')
    yield from absent(came, *({'policy': ['out', 'report'], 'capture': ['out', 'report'], 'out': ['out', 'report']}.get(slot, ['report'])))


def unwritable(bench):
    """OUT or REPORT in a folder that does not exist, or whose name is no folder."""
    slot = bench.rng.choice(['out', 'report'])
    name = bench.rng.choice([str(bench.folder.path / 'nowhere' / 'file'), bench.folder.policy + '/file', 'n' * 300])
    came = bench.run(**{slot: name})
    yield from faulty(bench, came, 5, f'write fault: {slot}\n')
    yield from absent(came, 'report', *(['out'] if slot == 'out' else []))


def unreadable(bench):
    """Files without permission, for a user who is not root."""
    slot = bench.rng.choice(['policy', 'capture', 'out', 'report'])
    bench.folder.put(*bench.seed)
    bench.folder.clear()
    as_user = {'user': NOBODY, 'group': NOBODY, 'extra_groups': []} if os.geteuid() == 0 else {}
    with shared(bench, slot) as there:
        came = piped(bench, there.words(*bench.options), **as_user)
    reads = slot in ('policy', 'capture')
    yield from faulty(bench, came, 4 if reads else 5, f'{"read" if reads else "write"} fault: {slot}\n')
    yield from absent(came, 'out', 'report')


class shared:
    """A folder in which anyone may read and write, except for one file."""

    def __init__(self, bench, slot):
        self.path, self.slot, self.seed = bench.folder.path / 'shared', slot, bench.seed

    def __enter__(self):
        self.path.mkdir()
        self.path.chmod(0o777)
        there = thrown_runs.Folder(self.path)
        there.put(*self.seed)
        for name, mode in ((there.policy, 0o644), (there.capture, 0o644)):
            os.chmod(name, mode)
        if self.slot in ('out', 'report'):
            open(getattr(there, self.slot), 'wb').close()
        os.chmod(getattr(there, self.slot), 0)
        return there

    def __exit__(self, *_):
        shutil.rmtree(self.path)


def broken(bench):
    """A file that can be opened and can't be read."""
    slot = bench.rng.choice(['policy', 'capture'])
    came = bench.run(**{slot: BROKEN})
    yield from faulty(bench, came, 4, f'read fault: {slot}\n')
    yield from absent(came, 'out', 'report')


def endless(bench):
    """A device with endless bytes, or with none, in place of POLICY or CAPTURE."""
    slot = bench.rng.choice(['policy', 'capture'])
    name = bench.rng.choice([ENDLESS, NOTHING])
    note = {
        ('policy', ENDLESS): 'policy: too long',
        ('policy', NOTHING): 'policy: bad version line',
        ('capture', ENDLESS): 'capture: bad magic',
        ('capture', NOTHING): 'capture: cut head',
    }[slot, name]
    came = bench.run(**{slot: name})
    yield from faulty(bench, came, 2 if slot == 'policy' else 3, note + '\n')
    yield from absent(came, 'out', 'report')


# Files that change while they are read, and limits of the system.


def changed_while_read(bench):
    """CAPTURE grows or shrinks after its head was read: OUT is a fifo, and the program waits there for its reader."""
    grows = bench.rng.randrange(2) == 0
    bench = long_capture(bench) if bench.rng.randrange(4) == 0 else bench
    before = bench.seed.capture
    head = thrown_cases.ends_of(before)[0]
    more = before[head:] + before[head : head + bench.rng.randrange(60)]
    after = before + more if grows else before[: bench.rng.randrange(head, len(before) + 1)]
    bench.folder.put(*bench.seed)
    bench.folder.clear()
    os.mkfifo(bench.folder.out)
    begun = time.monotonic()
    process = bench.start()
    when_opened(process, bench.folder.capture, begun + bench.limit)
    with open(bench.folder.capture, 'r+b') as file:
        file.truncate(len(after))
        file.seek(len(before))
        file.write(after[len(before) :])
    written = []
    reader = threading.Thread(target=lambda: written.append(thrown_runs.contents(bench.folder.out)))
    reader.start()
    came = bench.ended(process, begun)
    unblocked(bench.folder.out)
    reader.join()
    came = came._replace(out=written[0])
    # What was read ahead stays, whatever happens to the file.
    seen = {len(after)} if grows else {len(after), len(before), max(len(after), min(len(before), READ_AHEAD))}
    whole = after if grows else before
    told = [list(thrown_runs.unlike(came, thrown_runs.due_of_run(bench.seed.policy, whole[:size]))) for size in seen]
    yield from min(told, key=len)


def when_opened(process, name, until):
    """Waits until a process has a file open and sleeps, or has ended."""
    while not has_ended(process) and time.monotonic() < until:
        try:
            with open(f'/proc/{process}/stat', encoding='ascii') as file:
                rests = file.read().rsplit(') ', 1)[1][0] == 'S'
            links = [os.readlink(f'/proc/{process}/fd/{number}') for number in os.listdir(f'/proc/{process}/fd')]
        except OSError:
            continue
        if rests and name in links:
            return
        time.sleep(0.0002)


def unblocked(fifo):
    """Lets a process go on that waits for the other end of a fifo."""
    os.close(os.open(fifo, os.O_RDWR | os.O_NONBLOCK))


def grows_freely(bench):
    """CAPTURE grows all the time, by pieces of records. It is read up to the end that it had when that end was found. The run has no options, because
    in pcapng there may be thousands of small bursts, whose memory is filled anew each time."""
    bench = bench._replace(options=[])
    ends = thrown_cases.ends_of(bench.seed.capture)
    records = bench.seed.capture[ends[0] : ends[-1]] or thrown_cases.some_part(bench.seed.capture)
    records *= 100_000 // len(records) + 1
    size = bench.rng.choice([1, 10, 58, 1000])
    stop = threading.Event()
    bench.folder.put(bench.seed.policy, bench.seed.capture[: ends[-1]])
    bench.folder.clear()

    def grow():
        with open(bench.folder.capture, 'ab', buffering=0) as file:
            for place in range(0, len(records), size):
                if stop.is_set():
                    break
                file.write(records[place : place + size])

    grower = threading.Thread(target=grow)
    grower.start()
    begun = time.monotonic()
    process = bench.start()
    came = bench.ended(process, begun)
    stop.set()
    grower.join()
    grown = thrown_runs.contents(bench.folder.capture)
    count = int((came.report or b'records 0').rsplit(b'\nrecords ', 1)[-1].split()[0]) if came.report else 0
    parts = thrown_cases.parts_of(grown)
    records = list(itertools.accumulate(part.is_packet for part in parts))
    if count > records[-1]:
        yield f'{count} records were read, and there are {records[-1]}'
        return
    # How far it was read: after `count` records and some other blocks, whose number the report doesn't have; or up to a block that is faulty itself.
    ends = [part.end for part, so_far in zip(parts, records) if so_far == count]
    seen = [grown[: end + (1 if came.status == 3 else 0)] for end in ends] + [grown]
    told = [list(thrown_runs.unlike(came, thrown_runs.due_of_run(bench.seed.policy, front))) for front in seen]
    yield from min(told, key=len)


def few_files(bench):
    """The system lets the program open fewer files than it needs."""
    came = confined(bench, resource.RLIMIT_NOFILE, bench.rng.choice([3, 4, 5, 6, 7, 20]))
    if came.status not in (4, 5, 127):
        yield from thrown_runs.unlike(came, bench.due)
    yield from thrown_runs.no_fronts(came, bench.due)


def little_memory(bench):
    """The system gives little memory. If the loader can't start the program, that is no run."""
    bench = long_capture(bench) if bench.rng.randrange(4) == 0 else bench
    came = confined(bench, resource.RLIMIT_AS, bench.rng.randrange(3000, bench.rng.choice([4000, 30_000, 300_000])) * 1024)
    if came.status == 127:
        return
    if came.status != 6:
        yield from thrown_runs.unlike(came, bench.due)
    elif came.note:
        yield f'it ran out of memory, and printed {came.note!r}'
    yield from thrown_runs.no_fronts(came, bench.due)


# Two names for one file.

PAIRS = [('out', 'policy'), ('out', 'capture'), ('report', 'policy'), ('report', 'capture'), ('report', 'out')]


def other_name(bench, name):
    """Another name of a file: with a dot, by a hard or symbolic link, or by a link to its folder."""
    hard, soft, folder = (str(bench.folder.path / link) for link in ('hard', 'soft', 'folder'))
    for link in (hard, soft, folder):
        if os.path.lexists(link):
            os.unlink(link)
    os.link(name, hard)
    os.symlink(name, soft)
    os.symlink('.', folder)
    head, tail = os.path.split(name)
    return bench.rng.choice([f'{head}/./{tail}', f'{folder}/{tail}', hard, soft])


def two_names(bench):
    """OUT or REPORT is the file of another slot by another name: it is refused, and no file loses anything."""
    slot, same = bench.rng.choice(PAIRS)
    stood = {'out': b'what stood in Out', 'report': b'what stood in Report'}
    names = {name: str(bench.folder.path / f'old-{name}') for name in stood}
    for name, data in stood.items():
        with open(names[name], 'wb') as file:
            file.write(data)
    bench.folder.put(*bench.seed)
    named = {**names, slot: other_name(bench, names.get(same) or getattr(bench.folder, same))}
    came = bench.run(**named)
    yield from faulty(bench, came, 5, f'write fault: {slot}\n')
    due = {bench.folder.policy: bench.seed.policy, bench.folder.capture: bench.seed.capture, **{names[name]: stood[name] for name in stood}}
    for name, data in due.items():
        if thrown_runs.contents(name) != data:
            yield f'{name} was changed: it is {slot} and {same}'


# Standard output or standard error in a file of the run.


def led_into_a_file(bench):
    """Standard output or standard error goes into the file that is to be OUT or REPORT: it is refused, and the file loses nothing."""
    slot, stream = bench.rng.choice(['out', 'report']), bench.rng.choice([1, 2])
    stood = b'what stood in it\n'
    name = str(bench.folder.path / 'old')
    with open(name, 'wb') as file:
        file.write(stood)
    with open(name, 'ab') as file:
        os.set_inheritable(file.fileno(), True)
        came = bench.run([(os.POSIX_SPAWN_DUP2, file.fileno(), stream)], prints=stream != 1, **{slot: name})
    line = f'write fault: {slot}\n'
    yield from faulty(bench, came, 5, '' if stream == 1 else line)
    left = thrown_runs.contents(name)
    if not left.startswith(stood) or (stream == 1 and left != stood + line.encode()):
        yield f'{name} was changed: it is {slot}, and stream {stream} goes there: {left[:200]!r}'


TROUBLES = [
    full_disk,
    full_disk,
    full_device,
    closed_streams,
    closed_note,
    closed_fifo,
    in_pieces,
    in_pieces,
    vanished,
    unlinked,
    folder_for_a_file,
    unwritable,
    unreadable,
    broken,
    endless,
    changed_while_read,
    grows_freely,
    few_files,
    little_memory,
    two_names,
    two_names,
    led_into_a_file,
]
