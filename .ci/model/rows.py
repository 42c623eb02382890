"""Worked rows: scripts with lines of the report that were computed by hand.

A row's script is BASE with some lines changed, then its commands, then `end`. What is wanted of a line
is a front of it; of a row's command lines, one front each, in their order.
"""
ABCD = '88d4266fd4e6338d13b845fcf289579d209c897823b9217da3e161936f031589'
NOTHING = 'e3b0c44298fc1c149afbf4c8996fb92427ae41e4649b934ca495991b7852b855'
ZEROS = ' io 0 0 0 0 0 0 0'
BYTES = 'bytes 4 gen {} from 4 sha256 ' + ABCD
BASE = ['morph 1', 'servers 6', 'chunk 1', 'points 1 2', 'stage 2 2 1', 'stage 4 2 0', 'file a text abcd', 'phase',
        'client']


def base(**changed):
    """BASE with other servers (s), chunk (c), points (p), stages (g) or files (f)."""
    places = {'s': (1, 2), 'c': (2, 3), 'p': (3, 4), 'g': (4, 6), 'f': (6, 7)}
    lines = list(BASE)
    for key in sorted(changed, key=lambda k: -places[k][0]):
        lines[slice(*places[key])] = changed[key]
    return lines


# Each row: its name, the lines before its commands, its commands, and fronts of what each of them says.
RUNS = [
    ('one stage', base(s=['servers 3'], p=['points 1'], g=['stage 2 1 0']), ['create a', 'read a'],
     ['created io 0 0 0 0 6 6 0', BYTES.format(0) + ' io 4 0 0 0 0 0 0']),
    ('create and read', BASE, ['create a', 'read a'],
     ['created io 0 0 0 0 12 12 0', BYTES.format(0) + ' io 4 0 0 0 0 0 0']),
    ('no bytes', base(f=['file a empty']), ['create a', 'read a', 'convert a'],
     ['created' + ZEROS, f'bytes 0 gen 0 from 0 sha256 {NOTHING}' + ZEROS, 'converted 0 to 1 made 0' + ZEROS]),
    ('a short wide stripe', base(f=['file a text abcde']), ['create a', 'convert a', 'dump a'],
     ['created io 0 0 0 0 16 16 0', 'converted 0 to 1 made 4 io 0 0 6 0 4 9 0']),
    ('convert', BASE, ['create a', 'convert a', 'dump a'],
     ['created', 'converted 0 to 1 made 2 io 0 0 4 0 2 6 0']),
    ('equal widths', base(s=['servers 6'], g=['stage 2 2 1', 'stage 2 2 0', 'stage 4 2 0']),
     ['create a', 'convert a', 'reclaim a', 'read a'],
     ['created', 'converted 0 to 1 made 0 io 0 0 0 0 0 8 0', 'reclaimed closed 1 dropped 4 pinned - io 0 0 0 0 0 0 4',
      BYTES.format(1)]),
    ('at the tolerance', BASE, ['create a', 'lose 0', 'lose 2', 'lose 4', 'read a'],
     ['created', 'lost 2', 'lost 2', 'lost 2', BYTES.format(0) + ' io 2 0 2 6 0 0 0']),
    ('above the tolerance', BASE, ['create a', 'lose 0', 'lose 2', 'lose 4', 'lose 5', 'read a', 'repair a'],
     ['created', 'lost 2', 'lost 2', 'lost 2', 'lost 2',
      'datalost gen 0 stripe 0 lost D0:11 C0.0:12 P2.0.0:13 P2.0.1:14 io 1 0 0 4 0 0 0',
      'datalost gen 0 stripe 0 lost D0:11 C0.0:12 P2.0.0:13 P2.0.1:14 io 1 0 0 4 0 6 0']),
    ('the wide stripe', BASE, ['create a', 'convert a', 'lose 0', 'lose 1', 'read a', 'lose 2', 'read a'],
     ['created', 'converted', 'lost', 'lost', BYTES.format(1) + ' io 2 0 2 2 0 0 0', 'lost',
      'datalost gen 1 stripe 0 lost D0:12 D1:13 D2:15 io 1 0 2 3 0 0 0']),
    ('needs', BASE, ['create a', 'lose 0', 'convert a', 'repair a', 'convert a'],
     ['created', 'lost 2', 'needs D0:11 io 0 0 0 0 0 1 0', 'repaired 2 skipped 0 io 3 1 0 1 2 12 0',
      'converted 0 to 1 made 2 io 0 0 4 0 2 6 0']),
    ('held', BASE, ['create a', 'hold a', 'convert a', 'reclaim a', 'read a', 'release a', 'reclaim a', 'read a',
                    'release a'],
     ['created', 'held 0', 'converted 0 to 1 made 2', 'reclaimed closed 0 dropped 0 pinned 0:1', BYTES.format(0),
      'released 0', 'reclaimed closed 1 dropped 8 pinned -', BYTES.format(1), 'notheld']),
    ('removed', base(f=['file a text abcd', 'file b text x']),
     ['create a', 'convert a', 'convert a', 'create a', 'remove a', 'read a', 'create a', 'reclaim a', 'read b'],
     ['created', 'converted 0 to 1 made 2', 'last 1', 'exists', 'removed now', 'removed', 'exists',
      'reclaimed closed 2 dropped 14 pinned -', 'absent']),
    ('without', BASE, ['create a', 'read a without 0 2 4 5', 'read a', 'convert a without 5'],
     ['created', 'unreachable gen 0 stripe 0 D0 server 0 io 1 0 0 4 0 0 0', BYTES.format(0),
      'unreachable P4.0.1 server 5 io 0 0 0 0 0 6 0']),
]
STOPS = [
    ('stopped', BASE, ['create a', 'convert a stop 9', 'read a', 'convert a'],
     ['created', 'stopped 0 to 1 made 1 io 0 0 2 0 1 6 0', BYTES.format(0),
      'converted 0 to 1 made 1 io 0 0 2 0 1 6 0']),
] + [
    (f'stopped after {n}', BASE, ['create a', f'convert a stop {n}', 'read a', 'convert a'],
     ['created', first, BYTES.format(gen), second])
    for n, first, gen, second in
    [(n, 'stopped 0 to 1 made 0', 0, 'converted 0 to 1 made 2') for n in range(9)]
    + [(n, 'stopped 0 to 1 made 1', 0, 'converted 0 to 1 made 1 io 0 0 2 0 1 6 0') for n in (9, 10, 11)]
    + [(12, 'converted 0 to 1 made 2', 1, 'last 1')]
]
# Whole texts, with the report or the line that is wanted, or some of its lines.
SWEEP = ['morph 1', 'servers 16', 'chunk 4096', 'points 1 2 4', 'stage 6 3 1', 'stage 6 3 0', 'stage 12 3 0',
         'policy 0 7 30', 'file big pattern 100000 0', 'phase', 'client', 'create big', 'tick 31', 'phase', 'client',
         'sweep', 'read big', 'end']
FIRST = BASE + ['create a', 'read a', 'end']
LETTERS = 1048576 - len('\n'.join(base(c=['chunk 65536'], f=['file a text ']) + ['create a', 'read a', 'end']))
TEXTS = [
    ('ages', 'run', '\n'.join(SWEEP),
     ['1.1.1 create big: created io 0 0 0 0 65 65 0', '2.1.1 sweep: swept 2 io 0 0 15 0 9 74 0',
      '2.1.1 big converted 0 to 1 made 0', '2.1.1 big converted 1 to 2 made 9']),
    ('the dump of a converted file', 'run', '\n'.join(BASE + ['create a', 'convert a', 'dump a', 'end']),
     ['chunk D0 server 0 here ca978112ca1bbdcafac231b39a23dc4da786eff8147c4e72b9807785afee48bb',
      'chunk P4.0.1 server 5 here 4e07408562bedb8b60ce05c1decfe3ad16b72230967de01f640b7e4729b49fce',
      'total io 0 0 4 0 14 18 0', 'converts io 0 0 4 0 2 6 0']),
    ('copies do not fit', 'run', '\n'.join(base(g=['stage 2 2 1', 'stage 2 2 0']) + ['create a', 'end']),
     ['refused line 5 shape copiesdontfit']),
    ('width 21', 'check', '\n'.join(base(s=['servers 25'], p=['points 1 2 4 8'], g=['stage 21 4 0'])[:6] + ['end']),
     ['family ok stages 1 tolerance 4']),
    ('width 22', 'check', '\n'.join(base(s=['servers 26'], p=['points 1 2 4 8'], g=['stage 22 4 0'])[:6] + ['end']),
     ['refused line 5 family undecodable 0 places 0 10 21 24 kernel 1 116 117']),
    ('points twice', 'run', '\n'.join(base(p=['points 3 3']) + ['create a', 'end']),
     ['refused line 5 family pointtwice 0 1']),
    ('point zero', 'run', '\n'.join(base(p=['points 0 1']) + ['create a', 'end']),
     ['refused line 5 family pointzero 0']),
    ('one point', 'run', '\n'.join(base(p=['points 1']) + ['create a', 'end']), ['refused line 5 family pointcount 1']),
    ('cut in a word', 'run', '\n'.join(FIRST[:10] + ['rea']), ['refused line 11 unknown']),
    ('cut behind a line', 'run', '\n'.join(FIRST[:10]) + '\n', ['refused line 11 order']),
    ('CR LF', 'run', '\r\n'.join(FIRST), ['1.1.1 create a: created io 0 0 0 0 12 12 0']),
    ('the longest text', 'run', '\n'.join(base(c=['chunk 65536'], f=['file a text ' + 'a' * LETTERS])
                                          + ['create a', 'read a', 'end']), ['report 1']),
    ('a longer text', 'run', '\n'.join(base(c=['chunk 65536'], f=['file a text ' + 'a' * (LETTERS + 1)])
                                       + ['create a', 'read a', 'end']), ['refused line 0 limit text']),
]
JSON = ('{"commands":[{"client":1,"command":1,"io":[0,0,0,0,12,12,0],"parts":[],"phase":1,"text":"create a: created"},'
        '{"client":1,"command":2,"io":[4,0,0,0,0,0,0],"parts":[],"phase":1,"text":"read a: ' + BYTES.format(0) + '"}],'
        '"converts":[0,0,0,0,0,0,0],"dumps":[],"total":[4,0,0,0,12,12,0]}\n')


def script_of(lines, commands):
    return '\n'.join(lines + commands + ['end'])
