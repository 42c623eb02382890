"""Limits on the address space, and the biggest script."""
import resource
import time

from judge import Case
from memory import cases

MIB = 1 << 20


def space(program):
    """Each case with little space; what the loader itself can't begin in is no run."""
    runs = wrong = 0
    for case in cases():
        begun, ends = time.time(), {}
        for kib in list(range(2048, 8192, 64)) + list(range(8192, 32768, 1024)) + [65536, 131072, 262144]:
            written, err, status = program.run(case.words, case.text, space=kib * 1024)
            if status == 127 or 'error while loading' in err or (status == -9 and kib < 3072):
                ends['not loaded'] = ends.get('not loaded', 0) + 1
                continue
            runs += 1
            ends[status] = ends.get(status, 0) + 1
            why = case.wrong(written, err, status)
            if why:
                wrong += 1
                print(f'hostile: {case.name} in {kib} KiB: {why}')
        print(f'hostile: {case.name}: {ends}, {time.time() - begun:.0f} s', flush=True)
    return runs, wrong


def biggest():
    """A script at its limits: 64 files of 1,024 chunks, 64 phases of 8 clients, 1,024 commands, four stages."""
    lines = ['morph 1', 'servers 128', 'chunk 1024', 'points 1 21 208 54', 'stage 11 4 2', 'stage 11 4 1',
             'stage 33 4 0', 'stage 33 3 0', 'policy 0 7 30 1000000000']
    names = [f'{i:0>32}' for i in range(64)]
    lines += [f'file {name} pattern 1048576 {i}' for i, name in enumerate(names)]
    turns = ['create'] + ['convert', 'read', 'repair', 'reclaim', 'read'] * 3
    for phase in range(64):
        lines += ['tick 1000000000', 'phase']
        mine = names[phase % 4 * 16:][:16]
        for client in range(8):
            lines += ['client'] + [f'{turns[phase // 4]} {name}' for name in mine[2 * client:2 * client + 2]]
    return '\n'.join(lines + [f'dump {name}' for name in names] + ['end']).encode()


def limits(program):
    """The biggest script runs; with too little space it ends with 5."""
    text, wrong = biggest(), 0
    case = Case('the biggest script', ['run'], text)
    begun = time.time()
    written, err, status = program.run(['run'], text)
    took = time.time() - begun
    peak = resource.getrusage(resource.RUSAGE_CHILDREN).ru_maxrss
    if status != 0 or case.wrong(written, err, status):
        wrong += 1
        print(f'hostile: the biggest script: status {status}: {case.wrong(written, err, status)}')
    commands = written.count(': ')
    print(f'hostile: the biggest script: {len(text)} bytes, {commands} commands, {took:.1f} s, '
          f'peak {peak // 1024} MiB, report {len(written)} bytes', flush=True)
    spaces = [16, 32, 64, 128, 256, 512, 640]
    for mib in spaces:
        written, err, status = program.run(['run'], text, space=mib * MIB)
        why = case.wrong(written, err, status)
        print(f'hostile: the biggest script in {mib} MiB: status {status}, {len(written)} bytes written', flush=True)
        if why or (mib <= 64 and status != 5):
            wrong += 1
            print(f'hostile: the biggest script in {mib} MiB: {why}')
    return 1 + len(spaces), wrong
