"""Each growth refused in turn, and no thread."""
import time

from judge import Case, seeds

BASE = 'morph 1\nservers 6\nchunk 1\npoints 1 2\nstage 2 2 1\nstage 4 2 0\nfile a text abcd\nphase\nclient\n'
SWEEP = ('morph 1\nservers 16\nchunk 4096\npoints 1 2 4\nstage 6 3 1\nstage 6 3 0\nstage 12 3 0\npolicy 0 7 30\n'
         'file big pattern 100000 0\nfile a text abc\nphase\nclient\ncreate big\ncreate a\ntick 31\nphase\nclient\n'
         'sweep\nread big\nsweep\ndump a\nend')
LIFE = ('create a\nhold a\nlose 0\nrepair a without 1\nconvert a\nreclaim a\nread a without 0 1\nrelease a\nreclaim a\n'
        'read a\nlose 4\nconvert a\nremove a\nread a\ndump a\nend')


def text_of(path):
    with open(path, 'rb') as file:
        return file.read()


def cases():
    first = BASE + 'create a\nread a\nend'
    return [
        Case('create and read', ['run'], first.encode()),
        Case('as JSON', ['run', '--json'], first.encode()),
        Case('needs', ['run'], (BASE + 'create a\nlose 0\nconvert a\nrepair a\nconvert a\ndump a\nend').encode()),
        Case('a conversion that stops', ['run'],
             (BASE + 'create a\nconvert a stop 9\nread a\nconvert a\ndump a\nend').encode()),
        Case('a life', ['run'], (BASE + LIFE).encode()),
        Case('two clients', ['run'], text_of('examples/races/together.morph')),
        Case('a sweep', ['run'], SWEEP.encode()),
        Case('a year', ['run'], text_of('examples/year.morph')),
        Case('a year as JSON', ['run', '--json'], text_of('examples/year.morph')),
        Case('check', ['check'], text_of('examples/families/width_21.morph')),
        Case('a refused family', ['check'], text_of('examples/families/width_22.morph')),
        Case('a refused script', ['run'], first.replace('servers 6', 'servers 06').encode()),
        Case('a seed', ['seed', '1']),
        Case('a seed as a script', ['run'], seeds.script_of(1), 16),
    ]


def memory(program):
    """The runs, and how many ended as none may."""
    runs = wrong = 0
    for case in cases():
        begun, asks, reports, before = time.time(), program.asks(case.words, case.text), 0, wrong
        for how in ('REFUSE_AT', 'REFUSE_FROM'):
            for number in range(1, asks + 2, case.step):
                written, err, status = program.run(case.words, case.text, **{how: number})
                why = case.wrong(written, err, status)
                runs += 1
                reports += status == 5 and written != ''
                if why:
                    wrong += 1
                    print(f'hostile: {case.name}, {how}={number}: {why}')
        print(f'hostile: {case.name}: {asks} asks, {reports} reports in which a command lacked memory, '
              f'{wrong - before} wrong, {time.time() - begun:.0f} s', flush=True)
    return runs, wrong


def threads(program):
    """Without a thread the caller runs each client."""
    wrong = 0
    for case in cases():
        why = case.wrong(*program.run(case.words, case.text, REFUSE_THREADS=1))
        if why:
            wrong += 1
            print(f'hostile: {case.name} without threads: {why}')
    return len(cases()), wrong
