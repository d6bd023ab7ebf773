"""One run of the program with a time limit, and what is due of it by the rules.

The rules are those of policy_rules.py, graph_rules.py, packet_rules.py, capture_rules.py and flow_rules.py, which share nothing with the program.
tools/throw-mutations and tools/refuse-allocations use this module.
"""

import os
import pathlib
import re
import select
import signal
import time
import typing

import flow_rules
import graph_rules
import packet_rules
import policy_rules

# What may be printed on standard error: lines that begin with the name of the program, without control characters (a path may have some).
TOLD = re.compile(r'(nfp: [^\x00-\x1f\x7f]*\n)*')

# The line that belongs to each status, by the table of statuses.
FAULT = (
    r'too long|not utf-8 at \d+|bad version line|line \d+ column \d+: syntax|cycle [a-z0-9_-]+( [a-z0-9_-]+)*|line \d+: (unknown kind|'
    r'duplicate name|unknown name|too many functions|too many chains|too many rules|bad setting|priority \S+ over \S+ forbidden: .+)'
)
GRAPH_FAULT = (
    r'too long|not utf-8 at \d+|bad version line|line \d+: (syntax|unknown name|twice|whole chain)|missing \S+|'
    r'\S+ before \S+ (out of order|forbidden: .+ before .+)'
)
NOTES = {
    0: r'(done records \d+ emitted \d+ dropped \d+|flows records \d+ flows \d+ exported \d+ packets \d+)\n',
    1: r'usage: (no command|unknown command|words|number (mergers|burst|workers|seed|count)|merge|same name)\n',
    2: rf'policy: ({FAULT})\n',
    3: r'capture: (bad (magic|version|link \d+|block \d+|resolution \d+)|cut (head|record \d+|block \d+)|(frame|block) too long \d+ \d+|'
    r'no interface \d+|too many (records|blocks))\n',
    4: r'read fault: (policy|graph|capture)\n',
    5: r'(write fault: (out|report)\n)?',
    6: r'',
    8: rf'graph: ({GRAPH_FAULT})\n',
}


class Ended(typing.NamedTuple):
    status: int  # below 0 if it ended by a signal
    note: typing.Optional[str]  # None if nobody could read it
    told: str  # on standard error
    out: typing.Optional[bytes]  # None if there is no such file
    report: typing.Optional[bytes]
    seconds: float
    in_time: bool


class Due(typing.NamedTuple):
    """The result of a run without trouble."""

    status: int
    note: str
    out: typing.Optional[bytes]
    report: typing.Optional[bytes]


def environment(**more):
    """The environment of a run: without progress, and with new memory filled with a byte other than 0."""
    kept = {name: value for name, value in os.environ.items() if name not in ('NFP_PROGRESS', 'LD_PRELOAD')}
    return {**kept, 'MALLOC_PERTURB_': '165', **more}


class Folder:
    """The files of one run."""

    def __init__(self, path):
        self.path = pathlib.Path(path)
        self.policy, self.capture, self.out, self.report, self.note, self.told, self.graphs = (
            str(self.path / name) for name in ('policy', 'capture', 'out', 'report', 'note', 'told', 'graphs')
        )

    def put(self, policy, capture):
        pathlib.Path(self.policy).write_bytes(policy)
        pathlib.Path(self.capture).write_bytes(capture)

    def clear(self):
        for name in (self.out, self.report):
            if os.path.lexists(name):
                os.unlink(name)

    def words(self, *options, **names):
        """The words of a run; `names` replaces the names of slots."""
        return ['run', *(names.get(slot, getattr(self, slot)) for slot in ('policy', 'capture', 'out', 'report')), *options]


def contents(name):
    """The bytes of a file, or None if there is none."""
    try:
        with open(name, 'rb') as file:
            return file.read()
    except OSError:
        return None


def wait(process, limit):
    """Waits for a process, and kills it after the limit. Returns its status, and whether it ended in time."""
    handle = os.pidfd_open(process)
    try:
        watched = select.poll()
        watched.register(handle, select.POLLIN)
        in_time = bool(watched.poll(limit * 1000))
        if not in_time:
            signal.pidfd_send_signal(handle, signal.SIGKILL)
        _, status = os.waitpid(process, 0)
    finally:
        os.close(handle)
    return os.waitstatus_to_exitcode(status), in_time


def started(program, words, folder, env, actions=()):
    """Starts a run whose standard output and error are files. `actions` are done last, as file actions of os.posix_spawn."""
    made = os.O_WRONLY | os.O_CREAT | os.O_TRUNC
    to_files = [(os.POSIX_SPAWN_OPEN, 0, os.devnull, os.O_RDONLY, 0)]
    to_files += [(os.POSIX_SPAWN_OPEN, number, name, made, 0o600) for number, name in ((1, folder.note), (2, folder.told))]
    # Python ignores these two signals; the program has to start with their default actions, as from a shell.
    usual = [signal.SIGPIPE, signal.SIGXFSZ]
    return os.posix_spawn(program, [program, *words], env, file_actions=[*to_files, *actions], setsigdef=usual)


def ended(process, folder, limit, begun):
    status, in_time = wait(process, limit)
    seconds = time.monotonic() - begun
    note, told = ((contents(name) or b'').decode('utf-8', 'backslashreplace') for name in (folder.note, folder.told))
    regular = [name if os.path.isfile(name) else None for name in (folder.out, folder.report)]
    out, report = (name and contents(name) for name in regular)
    return Ended(status, note, told, out, report, seconds, in_time)


def run(program, words, folder, env, limit, actions=()):
    folder.clear()
    begun = time.monotonic()
    return ended(started(program, words, folder, env, actions), folder, limit, begun)


# What is due.


def due_of_run(policy, capture, graphs=None):
    """What `nfp run` has to leave, whatever the bytes are."""
    answer = packet_rules.answer(policy, capture, graphs)
    report = None if answer.report is None else answer.report.encode('ascii')
    return Due(answer.status, answer.note + '\n', answer.out, report)


def due_of_plan(policy, graphs=None):
    note, status = policy_rules.plan(policy) if graphs is None else graph_rules.plan(policy, graphs)
    return Due(status, note, None, None)


def due_of_flows(capture):
    answer = flow_rules.answer(capture)
    return Due(answer.status, answer.note + '\n', None if answer.packets is None else b''.join(answer.packets), None)


# Findings in a result.


def misbehaviour(came, limit, planned=False):
    """What no run may do, whatever its input is: hang, end by a signal, or print what doesn't belong to its status."""
    if not came.in_time:
        yield f'did not end within {limit} seconds'
    elif came.status < 0:
        yield f'ended by {signal.Signals(-came.status).name}'
    elif came.status not in NOTES:
        yield f'ended with status {came.status}, which the program does not have'
    elif came.note is not None and not (planned and came.status == 0) and re.fullmatch(NOTES[came.status], came.note) is None:
        yield f'ended with status {came.status} and printed {came.note[:200]!r}'
    if not TOLD.fullmatch(came.told):
        yield f'printed {came.told[:200]!r} on standard error'


def unlike(came, due):
    """Differences of a run without trouble from what is due."""
    if (came.status, came.note) != (due.status, due.note):
        yield f'ended with status {came.status} and printed {came.note[:200]!r}; due are status {due.status} and {due.note[:200]!r}'
    for slot in ('out', 'report'):
        written, whole = getattr(came, slot), getattr(due, slot)
        if written != whole:
            yield f'{slot} is {sized(written)}, not {sized(whole)}'


def no_fronts(came, due):
    """Files of a run with trouble that are no front parts of what is due."""
    for slot in ('out', 'report'):
        written, whole = getattr(came, slot), getattr(due, slot)
        if written is not None and not (whole or b'').startswith(written):
            yield f'{slot} is {sized(written)}, which is no front part of {sized(whole)}'


def sized(data):
    return 'no file' if data is None else f'{len(data)} bytes'
