"""The grammar of scripts: a text is a Script, or has a first faulty line and its kind.

The kinds of faults are one function each, tried in their order on each line. What a line's fault
depends on is counted over the lines before it, and these had no fault.
"""
import re
from dataclasses import dataclass, field

import family

MOST_TEXT = 1048576
MOST_NUMBER, MOST_TICK, MOST_POINT, MOST_POINTS = 4294967295, 1000000000, 255, 4
MOST_CHUNK, MOST_FILES, MOST_START, MOST_LENGTH, MOST_CHUNKS = 65536, 64, 250, 1048576, 1024
MOST_PHASES, MOST_CLIENTS, MOST_COMMANDS = 64, 8, 1024

# Whether `convert NAME stop N` is a line of scripts.
HAS_STOP = True

ON_FILE = ['create', 'read', 'hold', 'release', 'repair', 'convert', 'reclaim', 'remove']
COMMANDS = ON_FILE + ['lose', 'sweep']
WITH_SERVERS = ['read', 'repair', 'convert']
OTHERS = ['morph', 'servers', 'chunk', 'points', 'stage', 'policy', 'file', 'tick', 'phase', 'client',
          'dump', 'end']
CONTENTS = ['empty', 'text', 'hex', 'pattern']
WORDS_OF_LINE = {'morph': 2, 'servers': 2, 'chunk': 2, 'stage': 4, 'tick': 2, 'phase': 1, 'client': 1,
                 'dump': 2, 'end': 1, 'lose': 2, 'sweep': 1}
FOLLOWS = {
    'start': ['morph'],
    'morph': ['servers'],
    'servers': ['chunk'],
    'chunk': ['points'],
    'points': ['stage'],
    'stage': ['stage', 'policy', 'file'],
    'policy': ['file'],
    'file': ['file', 'tick', 'phase', 'dump', 'end'],
    'tick': ['tick', 'phase', 'dump', 'end'],
    'phase': ['client'],
    'client': ['command', 'client', 'phase', 'tick', 'dump', 'end'],
    'command': ['command', 'client', 'phase', 'tick', 'dump', 'end'],
    'dump': ['dump', 'end'],
    'end': [],
}
PRINTED = bytes(range(32, 127))
DECIMAL = re.compile(rb'(0|[1-9][0-9]*)\Z')
HEX = re.compile(rb'([0-9a-f]{2})+\Z')
NAME = re.compile(rb'[a-z0-9_.-]{1,32}\Z')


class Refused(Exception):
    """The text is no script: the line of its first fault, and the fault's text."""

    def __init__(self, line, text):
        super().__init__(f'refused line {line} {text}\n')


@dataclass
class Command:
    line: int
    verb: str
    file: int = None
    away: tuple = ()
    stop: int = None
    server: int = None


@dataclass
class Script:
    servers: int = None
    chunk: int = None
    points: list = field(default_factory=list)
    stages: list = field(default_factory=list)
    policy: list = None
    files: dict = field(default_factory=dict)
    items: list = field(default_factory=list)
    dumps: list = field(default_factory=list)

    def named(self, number):
        return list(self.files)[number].decode()

    def phases(self):
        return [clients for kind, clients in self.items if kind == 'phase']

    def told(self, command):
        """The command as a script spells it."""
        words = [command.verb]
        if command.file is not None:
            words.append(self.named(command.file))
        if command.server is not None:
            words.append(str(command.server))
        if command.away:
            words += ['without'] + [str(s) for s in sorted(command.away)]
        if command.stop is not None:
            words += ['stop', str(command.stop)]
        return ' '.join(words)


class Line:
    """A line's bytes and its words, which one space each parts."""

    def __init__(self, number, raw):
        self.number, self.raw = number, raw
        self.words = raw.split(b' ')
        self.head = self.words[0].decode('latin-1')
        self.kind = 'command' if self.head in COMMANDS else self.head

    def third(self):
        return self.words[2].decode('latin-1') if len(self.words) > 2 else None

    def number_words(self):
        """The words in numbers' places."""
        if self.head in ('servers', 'chunk', 'points', 'stage', 'policy', 'tick', 'lose'):
            return self.words[1:]
        if self.head == 'file':
            return self.words[3:] if self.third() == 'pattern' else []
        return self.words[3:] if self.head in WITH_SERVERS else []

    def numbers(self):
        return [int(word) for word in self.number_words()]

    def servers(self):
        """The servers that the line names."""
        named = self.head == 'lose' or (self.head in WITH_SERVERS and self.third() == 'without')
        return self.numbers() if named else []

    def rest(self):
        """What stands behind the third word and one space."""
        return self.raw[sum(len(word) + 1 for word in self.words[:3]):]

    def length(self):
        """How many bytes the file has, of a `file` line."""
        content = self.third()
        if content == 'text':
            return len(self.rest())
        if content == 'hex':
            return len(self.words[3]) // 2
        return self.numbers()[0] if content == 'pattern' else 0

    def content(self):
        if self.third() == 'text':
            return self.rest()
        if self.third() == 'hex':
            return bytes.fromhex(self.words[3].decode())
        if self.third() == 'pattern':
            length, start = self.numbers()
            period = bytes((x + start) % 251 for x in range(251))
            return (period * (length // 251 + 1))[:length]
        return b''


class Reader:
    """The lines so far, none of them faulty."""

    def __init__(self):
        self.script = Script()
        self.before = 'start'
        self.first_stage = None
        self.clients = 0
        self.commands = 0

    # One function for each kind of fault, in the order in which they are tried.

    def text(self, line):
        return bool(line.raw.translate(None, PRINTED))

    def header(self, line):
        return line.number == 1 and line.raw != b'morph 1'

    def unknown(self, line):
        if line.head not in COMMANDS + OTHERS:
            return True
        return line.head == 'file' and len(line.words) > 2 and line.third() not in CONTENTS

    def arity(self, line):
        count, head, third = len(line.words), line.head, line.third()
        if head == 'points':
            return count < 2
        if head == 'policy':
            return not self.script.stages or count != 1 + len(self.script.stages)
        if head == 'file':
            if third == 'text':
                return line.rest() == b''
            return count != {None: -1, 'empty': 3, 'hex': 4, 'pattern': 5}[third]
        if head in WITH_SERVERS and count >= 4:
            if head == 'convert' and HAS_STOP and count == 4 and third == 'stop':
                return False
            return third != 'without'
        return count != WORDS_OF_LINE.get(head, 2)

    def number(self, line):
        if line.head == 'file' and line.third() == 'hex':
            return not HEX.match(line.words[3])
        return any(not DECIMAL.match(word) or int(word) >= 2 ** 64 for word in line.number_words())

    def limit(self, line):
        """The name of the first limit that the line passes."""
        numbers, head, script = line.numbers(), line.head, self.script
        in_ticks = head in ('tick', 'policy')
        passed = [
            ('number', not in_ticks and any(n > MOST_NUMBER for n in numbers)),
            ('tick', in_ticks and any(n > MOST_TICK for n in numbers)),
            ('point', head == 'points' and any(n > MOST_POINT for n in numbers)),
            ('points', head == 'points' and len(numbers) > MOST_POINTS),
            ('chunk', head == 'chunk' and not 1 <= numbers[0] <= MOST_CHUNK),
        ]
        if head == 'file':
            length = line.length()
            passed += [
                ('name', not NAME.match(line.words[1])),
                ('files', len(script.files) >= MOST_FILES),
                ('pattern', line.third() == 'pattern' and numbers[1] > MOST_START),
                ('length', length > MOST_LENGTH),
                ('chunks', script.chunk is not None and -(-length // script.chunk) > MOST_CHUNKS),
            ]
        passed += [
            ('phases', head == 'phase' and len(script.phases()) >= MOST_PHASES),
            ('clients', head == 'client' and self.clients >= MOST_CLIENTS),
            ('commands', line.kind == 'command' and self.commands >= MOST_COMMANDS),
        ]
        return next((name for name, holds in passed if holds), None)

    def twice(self, line):
        if line.head == 'file':
            return line.words[1] in self.script.files
        if line.head == 'dump':
            return line.words[1] in [list(self.script.files)[number] for number in self.script.dumps]
        return len(set(line.servers())) < len(line.servers())

    def nofile(self, line):
        return line.head in ON_FILE + ['dump'] and line.words[1] not in self.script.files

    def noserver(self, line):
        return self.script.servers is not None and any(s >= self.script.servers for s in line.servers())

    def order(self, line):
        if line.kind not in FOLLOWS[self.before]:
            return True
        if line.head == 'policy':
            numbers = line.numbers()
            return numbers[0] != 0 or any(a >= b for a, b in zip(numbers, numbers[1:]))
        return line.head == 'sweep' and self.script.policy is None

    def fault(self, line):
        """The text of the line's fault, or None."""
        for kind in ('text', 'header', 'unknown', 'arity', 'number', 'limit', 'twice', 'nofile', 'noserver',
                     'order'):
            found = getattr(self, kind)(line)
            if found:
                return f'limit {found}' if kind == 'limit' else kind
        return None

    def take(self, line):
        """Adds a line without a fault."""
        script, head = self.script, line.head
        self.before = line.kind
        if head == 'servers':
            script.servers = line.numbers()[0]
        elif head == 'chunk':
            script.chunk = line.numbers()[0]
        elif head == 'points':
            script.points = line.numbers()
        elif head == 'stage':
            self.first_stage = self.first_stage or line.number
            script.stages.append(family.Stage(*line.numbers()))
        elif head == 'policy':
            script.policy = line.numbers()
        elif head == 'file':
            script.files[line.words[1]] = line.content()
        elif head == 'tick':
            script.items.append(('tick', line.numbers()[0]))
        elif head == 'phase':
            script.items.append(('phase', []))
            self.clients = 0
        elif head == 'client':
            script.items[-1][1].append([])
            self.clients += 1
        elif head == 'dump':
            script.dumps.append(list(script.files).index(line.words[1]))
        elif line.kind == 'command':
            script.items[-1][1][-1].append(self.command(line))
            self.commands += 1

    def command(self, line):
        command = Command(line.number, line.head)
        if line.head == 'lose':
            command.server = line.numbers()[0]
        elif line.head in ON_FILE:
            command.file = list(self.script.files).index(line.words[1])
            command.away = tuple(sorted(line.servers()))
            if line.third() == 'stop':
                command.stop = line.numbers()[0]
        return command


def lines_of(text):
    """The lines of a text, each without its LF or CR LF; the last may have no end."""
    lines = [part[:-1] if part.endswith(b'\r') else part for part in text.split(b'\n')[:-1]]
    last = text.rpartition(b'\n')[2]
    return lines + [last] if last else lines


def read(text):
    """The script that the text is; else Refused."""
    if len(text) > MOST_TEXT:
        raise Refused(0, 'limit text')
    lines = lines_of(text)
    if not lines:
        raise Refused(1, 'header')
    reader = Reader()
    for number, raw in enumerate(lines, 1):
        line = Line(number, raw)
        fault = reader.fault(line)
        if fault:
            raise Refused(number, fault)
        reader.take(line)
    if reader.before != 'end':
        raise Refused(len(lines) + 1, 'order')
    script = reader.script
    fault = family.shape_fault(script.stages, script.servers)
    if fault:
        raise Refused(reader.first_stage, f'shape {fault}')
    fault = family.family_fault(script.stages, script.points)
    if fault:
        raise Refused(reader.first_stage, f'family {fault}')
    return script
