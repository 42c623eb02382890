"""Scripts drawn from a number: plain ones, mutated ones, and ones at a limit.

Each function gives the words that the program is called with and the text that it reads.
"""
import random

import family
import script
from seeds import script_of

VERBS = ['read'] * 4 + ['convert'] * 3 + ['reclaim', 'repair', 'repair', 'hold', 'release', 'create', 'remove']
NAMES = ['a', 'b.x', 'c-1', 'd_', '0']


def chain(r):
    """Stages that mostly have no fault, over widths that are tried quickly."""
    stages = [family.Stage(r.choice([1, 2, 2, 3, 4, 6]), r.randrange(1, 4), r.choice([0, 1, 1, 2]))]
    for _ in range(r.randrange(4)):
        last = stages[-1]
        width = last.width * r.choice([1, 1, 2, 2, 3])
        most = last.parities if width == last.width else min(last.parities, last.width)
        if width <= 24:
            stages.append(family.Stage(width, r.randrange(1, most + 1), r.randrange(last.copies + 1)))
    while family.shape_fault(stages, script.family.MOST_SERVERS) and r.random() < 0.97:
        stages.append(family.Stage(stages[-1].width * 2, 1, 0))
    return stages[:r.choice([4, 4, 4, 5])]


def head_of(r, stages):
    """The lines up to the stages; mostly with as many servers as these need."""
    points = [1, 2, 4, 8][:stages[0].parities]
    if r.random() < 0.3:
        points = r.sample(range(1, 256), stages[0].parities)
    needed = max(s.width for s in stages) + stages[0].parities
    servers = needed + r.choice([0, 0, 0, 1, 3]) - (r.random() < 0.03)
    lines = ['morph 1', f'servers {servers}', f'chunk {r.choice([1, 2, 3, 3, 5, 64])}']
    lines.append('points ' + ' '.join(map(str, points)))
    return lines + ['stage %d %d %d' % stage for stage in stages], servers


def content(r):
    kind = r.randrange(8)
    if kind == 0:
        return 'empty'
    if kind == 1:
        return 'text ' + ''.join(chr(r.randrange(32, 127)) for _ in range(r.randrange(1, 30)))
    if kind == 2:
        return 'hex ' + r.randbytes(r.randrange(1, 20)).hex()
    return f'pattern {r.randrange(80)} {r.randrange(251)}'


def command(r, names, servers):
    verb, name = r.choice(VERBS), r.choice(names)
    if verb == 'remove' and r.random() < 0.7:
        verb = 'read'
    line = f'{verb} {name}'
    if verb in script.WITH_SERVERS and r.random() < 0.2:
        named = r.sample(range(servers), r.randrange(1, min(servers, 6) + 1))
        line += ' without ' + ' '.join(map(str, named))
    elif verb == 'convert' and script.HAS_STOP and r.random() < 0.3:
        line += f' stop {r.randrange(40)}'
    return line


def phase(r, names, servers, policy):
    """One client with all files, or several with files of their own."""
    lines = ['phase']
    if len(names) > 1 and r.random() < 0.2:
        mine = [[] for _ in range(r.randrange(2, len(names) + 1))]
        for i, name in enumerate(names):
            mine[i % len(mine)].append(name)
        for own in mine:
            lines.append('client')
            lines += [command(r, own, servers) for _ in range(r.randrange(6))]
        return lines
    lines += ['client'] * (r.random() < 0.97)
    for _ in range(r.randrange(9)):
        drawn = r.random()
        if drawn < 0.15:
            lines.append(f'lose {r.randrange(servers)}')
        elif drawn < 0.25 and policy:
            lines.append('sweep')
        else:
            lines.append(command(r, names, servers))
    return lines


def lines_of(number):
    r = random.Random(number)
    stages = chain(r)
    lines, servers = head_of(r, stages)
    policy = r.random() < 0.5
    if policy:
        lines.append('policy ' + ' '.join(map(str, [0] + sorted(r.sample(range(1, 40), len(stages) - 1)))))
    names = NAMES[:r.randrange(1, len(NAMES) + 1)]
    lines += [f'file {name} {content(r)}' for name in names]
    lines += ['phase', 'client'] + [f'create {name}' for name in names if r.random() < 0.85]
    for _ in range(r.randrange(1, 7)):
        if r.random() < 0.4:
            lines.append(f'tick {r.randrange(25)}')
        lines += phase(r, names, servers, policy)
    lines += [f'dump {name}' for name in r.sample(names, r.randrange(len(names) + 1))]
    return lines + ['end']


def words_of(r):
    return r.choice([['run'], ['run'], ['run', '--json'], ['check']])


def joined(r, lines):
    end = '\r\n' if r.random() < 0.15 else '\n'
    return (end.join(lines) + end * (r.random() < 0.7)).encode()


def drawn(number):
    r = random.Random(f'drawn {number}')
    return words_of(r), joined(r, lines_of(number))


POOL = ['', '0', '1', '2', '00', '06', '-1', '+1', '5', '7', '250', '251', '255', '256', '65536', '65537', '1000000000',
        '1000000001', '4294967295', '4294967296', '18446744073709551615', '18446744073709551616', 'x', 'A', 'a', 'b',
        'morph', 'servers', 'chunk', 'points', 'stage', 'policy', 'file', 'tick', 'phase', 'client', 'dump', 'end',
        'create', 'read', 'hold', 'release', 'repair', 'convert', 'reclaim', 'remove', 'lose', 'sweep', 'without',
        'stop', 'empty', 'text', 'hex', 'pattern', '6', 'ff', 'F0', '\t', '\r', '\x7f', '\u00e9']


def mutate_words(r, line):
    words = line.split(' ')
    place = r.randrange(len(words))
    if r.random() < 0.5:
        kinds = [script.COMMANDS, NAMES, ['0', '1', '2', '3', '5', '8', '40', '300']]
        like = next((kind for kind in kinds if words[place] in kind), kinds[-1])
        words[place] = r.choice(like)
        return ' '.join(words)
    kind = r.randrange(5)
    if kind == 0:
        del words[place]
    elif kind == 1:
        words.insert(place, r.choice(POOL))
    elif kind == 2:
        words.append(r.choice(words + POOL))
    else:
        words[place] = r.choice(POOL)
    return ' '.join(words)


def mutated(number):
    """A drawn script with one to three changes of its lines, words or bytes."""
    r = random.Random(f'mutated {number}')
    lines = lines_of(number)
    for _ in range(r.choice([1, 1, 2, 3])):
        if not lines:
            break
        place = r.randrange(len(lines))
        kind = r.randrange(12)
        if kind == 0:
            del lines[place]
        elif kind == 1:
            lines.insert(r.randrange(len(lines) + 1), lines[place])
        elif kind == 2:
            other = r.randrange(len(lines))
            lines[place], lines[other] = lines[other], lines[place]
        elif kind == 3:
            lines[place] += ' '
        else:
            lines[place] = mutate_words(r, lines[place])
    text = bytearray(joined(r, lines))
    kind = r.randrange(10)
    place = r.randrange(len(text) + 1)
    if kind == 0:
        del text[place:]
    elif kind == 1:
        text[place:place] = bytes([r.choice([0, 9, 10, 13, 32, 48, 127, 128, 255])])
    elif kind == 2:
        del text[place:place + 1]
    return words_of(r), bytes(text)


def frame(servers=6, chunk=1, points='1 2', stages=('2 2 1', '4 2 0'), policy=None, files=('a text abcd',),
          items=('phase', 'client', 'create a', 'read a')):
    lines = ['morph 1', f'servers {servers}', f'chunk {chunk}', f'points {points}']
    lines += [f'stage {stage}' for stage in stages]
    lines += [f'policy {policy}'] if policy is not None else []
    return lines + [f'file {file}' for file in files] + list(items) + ['end']


def at_limits():
    """For each limit a script of the greatest number that it allows, and one of the next number."""
    number, tick, u64 = script.MOST_NUMBER, script.MOST_TICK, 2 ** 64 - 1
    client = ['phase', 'client']
    yield from (frame(servers=n) for n in (4, 5, 6, 7, 128, 129, number, number + 1, u64, u64 + 1))
    yield from (frame(chunk=n) for n in (0, 1, 65536, 65537, number, number + 1, u64 + 1))
    yield from (frame(points=p, stages=['4 %d 0' % len(p.split(' '))], servers=16)
                for p in ('255 254', '255 256', '1 2 3 4', '1 2 3 4 5', f'1 {number}', f'1 {number + 1}'))
    yield from (frame(stages=s, servers=128) for s in (
        ['2 2 0'] * 4, ['2 2 0'] * 5, ['64 2 0'], ['65 2 0'], ['0 2 0'], ['2 0 0'], ['4 3 0'], ['2 2 2', '6 2 2'],
        ['2 2 3', '8 2 2'], ['2 2 2', '5 2 2'], ['1 2 1', '2 2 0'], ['1 2 1', '2 1 0'], ['2 2 0', '2 2 1'],
        ['2 1 0', '2 2 0'], ['2 2 0', '3 2 0'], ['2 2 1', '2 2 0'], [f'2 2 {number}'], [f'{number + 1} 2 1'],
        ['32 2 1', '64 2 0'], ['16 2 2', '48 2 0'], ['16 2 2', '32 2 0']))
    yield from (frame(points='1 2 4 8', stages=[f'{width} 4 0'], servers=64) for width in (21, 22))
    yield from (frame(points='1 2 4', stages=['64 3 0'], servers=n, files=[f'a pattern {n} 9']) for n in (66, 67, 68))
    yield from (frame(policy=p, items=client + ['create a', f'tick {t}'] + client + ['sweep', 'read a'])
                for p in (f'0 {tick}', '0 7') for t in (6, 7, tick - 1, tick, tick + 1, u64, u64 + 1))
    yield from (frame(policy=p) for p in (f'0 {tick + 1}', '1 2', '0 0', '0', '0 1 2', '0 4294967296'))
    yield frame(items=[f'tick {tick}'] * 70 + client + ['create a'] + [f'tick {tick}'] * 70)
    yield from (frame(files=['n' * n + ' text abcd'], items=client + [f'create {"n" * n}']) for n in (1, 32, 33))
    yield from (frame(files=[f'f{i} text {i}' for i in range(n)], items=client + ['create f63', 'dump f63'])
                for n in (64, 65))
    yield from (frame(files=[f'a pattern 300 {n}']) for n in (250, 251, number, number + 1))
    yield from (frame(files=[f'a pattern {n} 0'], chunk=c, items=client + ['create a', 'convert a', 'read a'])
                for n, c in ((1048576, 65536), (1048577, 65536), (1024, 1), (1025, 1), (65536, 64), (65537, 64)))
    yield from (frame(items=(client + ['create a']) * n) for n in (63, 64, 65))
    yield from (frame(items=client + ['create a', 'phase'] + ['client', 'read a'] * n) for n in (7, 8, 9))
    yield from (frame(items=client + ['create a', 'phase'] + ['client', 'read a'] * 8 + ['tick 1'] + ['client'] * n)
                for n in (1, 2))
    yield from (frame(items=client + ['create a'] + ['read a'] * n) for n in (1023, 1024))
    yield from (frame(items=client + ['create a', 'read a without ' + ' '.join(map(str, range(n)))])
                for n in (1, 5, 6, 7))
    yield from (frame(items=client + [f'lose {n}']) for n in (5, 6, number, number + 1))
    yield from (frame(files=[f'a {c}']) for c in ('hex 00ff', 'hex 00f', 'hex 00fF', 'hex ', 'hex', 'text', 'text ',
                                                   'text  ', 'empty', 'empty ', 'empty x', 'pattern 1', 'x', ''))
    if script.HAS_STOP:
        yield from (frame(items=client + ['create a', f'convert a stop {n}', 'read a', 'convert a'])
                    for n in (0, 8, 9, 11, 12, number, number + 1))
    room = script.MOST_TEXT - len('\n'.join(frame(chunk=65536, files=['a text '])))
    yield from (frame(chunk=65536, files=['a text ' + 'z' * n]) for n in (room, room + 1))

def limits(number):
    """The scripts at limits in their turn; behind the last one drawn seeds as scripts."""
    r = random.Random(f'limits {number}')
    scripts = list(at_limits())
    if number < len(scripts):
        text = '\n'.join(scripts[number]).encode()
        return (['check'] if number % 5 == 4 else ['run']), text
    return ['run'], script_of(r.randrange(2 ** 64))
