"""Sources and sinks that fail, under the built program."""
import os
import re
import shutil
import subprocess

from memory import BASE
from preload import Missing

TEXT = (BASE + 'create a\nread a\nend').encode()
REPORT = ('report 1\n1.1.1 create a: created io 0 0 0 0 12 12 0\n1.1.2 read a: bytes 4 gen 0 from 4 sha256 '
          '88d4266fd4e6338d13b845fcf289579d209c897823b9217da3e161936f031589 io 4 0 0 0 0 0 0\n'
          'total io 4 0 0 0 12 12 0\nconverts io 0 0 0 0 0 0 0\nend\n')
PIECE = 7


class Count:
    def __init__(self):
        self.runs = self.wrong = 0

    def judge(self, name, found, wanted):
        """One run: what it wrote, its standard error and its status are the wanted ones."""
        self.runs += 1
        if found != wanted:
            self.wrong += 1
            print(f'hostile: {name}: wanted {wanted}, found {found}')


def in_turn(program, count):
    """Each read and each write fails, until a run has none of this number."""
    for what, status in (('READ_AT', 3), ('WRITE_AT', 4)):
        number = 0
        while True:
            number += 1
            found = program.run(['run'], TEXT, PIECE=PIECE, **{what: number})
            if found == (REPORT, '', 0):
                break
            front = REPORT[:(number - 1) * PIECE] if status == 4 else ''
            count.judge(f'{what} {number}', found, (front, '', status))
            if number > 1000:
                break
        calls = -(-len(TEXT) // PIECE) + 1 if status == 3 else -(-len(REPORT) // PIECE)
        count.judge(f'the number of calls by {what}', number - 1, calls)


def shell(program, command, **more):
    """A command of the shell with the program's path in front; what it writes and its status."""
    done = subprocess.run(['bash', '-c', command, 'bash', program.path], capture_output=True, timeout=60, **more)
    return done.stdout.decode('latin-1'), done.stderr.decode('latin-1'), done.returncode


def of_the_shell(program, count):
    """A closed output, a full device, a folder, an input without an end, a pipe that nobody reads."""
    status = '; echo $? >&2'
    for name, command, wanted in [
        ('a closed output', '"$1" run >&-' + status, ('', '4\n', 0)),
        ('a closed output of check', '"$1" check >&-' + status, ('', '4\n', 0)),
        ('a closed output of a seed', '"$1" seed 1 >&- </dev/null' + status, ('', '4\n', 0)),
        ('a closed output of other words', '"$1" runs >&-' + status, ('', '4\n', 0)),
        ('a full device', '"$1" run >/dev/full' + status, ('', '4\n', 0)),
        ('a full device, as JSON', '"$1" run --json >/dev/full' + status, ('', '4\n', 0)),
        ('a full device, other words', '"$1" >/dev/full' + status, ('', '4\n', 0)),
        ('an output that is read only', '"$1" run 1</dev/null' + status, ('', '4\n', 0)),
        ('a folder', '"$1" run <.' + status, ('', '3\n', 0)),
        ('a folder, as JSON', '"$1" run --json <.' + status, ('', '3\n', 0)),
        ('a folder, check', '"$1" check <.' + status, ('', '3\n', 0)),
        ('a folder and a full device', '"$1" run <. >/dev/full' + status, ('', '3\n', 0)),
        ('a folder that isn\'t read', '"$1" runs <.' + status, ('refused words\n', '2\n', 0)),
        ('a closed input', '"$1" run <&-' + status, ('', '3\n', 0)),
        ('spaces without end', 'tr "\\0" " " </dev/zero 2>/dev/null | "$1" run' + status,
         ('refused line 0 limit text\n', '1\n', 0)),
        ('zeros without end', '"$1" check </dev/zero' + status, ('refused line 0 limit text\n', '1\n', 0)),
        ('no input', '"$1" run </dev/null' + status, ('refused line 1 header\n', '1\n', 0)),
        ('a pipe that nobody reads', '(sleep 0.3; "$1" run' + status + ') | true', ('', '4\n', 0)),
        ('a line that comes in two pieces', '(head -c 104; sleep 0.2; cat) | "$1" run' + status, (REPORT, '0\n', 0)),
        ('an input that ends in a line', 'head -c 103 | "$1" run' + status, ('refused line 11 unknown\n', '1\n', 0)),
    ]:
        count.judge(name, shell(program, command, input=TEXT), wanted)


def ends(program):
    count = Count()
    in_turn(program, count)
    of_the_shell(program, count)
    return count.runs, count.wrong


def strace(program, *more):
    """The run under strace: what it writes, its status, and what strace told."""
    here, there = os.pipe()
    done = subprocess.Popen(['strace', '-o', f'/proc/self/fd/{there}', *more, program.path, 'run'], pass_fds=[there],
                            stdin=subprocess.PIPE, stdout=subprocess.PIPE, stderr=subprocess.PIPE)
    os.close(there)
    written, err = done.communicate(TEXT, timeout=60)
    told = b''
    while True:
        part = os.read(here, 65536)
        if not part:
            break
        told += part
    os.close(here)
    return written.decode('latin-1'), err.decode('latin-1'), done.returncode, told.decode('latin-1')


def traced(program):
    """Each read from the input and each write to the output fails, or writes nothing."""
    if shutil.which('strace') is None:
        raise Missing('no strace is here')
    count = Count()
    calls = re.findall(r'^(read|write)\((\d)', strace(program, '-e', 'trace=read,write')[3], re.M)
    for call, end, status in (('read', '0', 3), ('write', '1', 4)):
        numbers = [n for n, (name, fd) in enumerate([c for c in calls if c[0] == call], 1) if fd == end]
        for number in numbers:
            for fault in ['error=EIO', 'error=EINTR'] + (['error=ENOSPC', 'retval=0'] if call == 'write' else []):
                found = strace(program, '-e', f'trace={call}', '-e', f'inject={call}:{fault}:when={number}')[:3]
                count.judge(f'{call} {number} with {fault}', found, ('', '', status))
    return count.runs, count.wrong
