"""The script of a seed, and the summary of its run."""
import hashlib

import report


class Draws:
    """Numbers that a number of 64 bits makes."""

    def __init__(self, seed):
        self.state = seed

    def draw(self, below):
        self.state = (self.state * 6364136223846793005 + 1442695040888963407) % 2 ** 64
        return (self.state >> 33) % below


def script_of(seed):
    draws = Draws(seed)
    lines = ['morph 1', 'servers 16', 'chunk 64', 'points 1 2 4', 'stage 6 3 1', 'stage 6 3 0', 'stage 12 3 0',
             'policy 0 7 30']
    for i in range(8):
        length = draws.draw(4001)
        lines.append(f'file f{i} pattern {length} {draws.draw(251)}')
    lines.append('phase')
    for c in range(4):
        lines += ['client', f'create f{2 * c}', f'create f{2 * c + 1}']
    for _ in range(8):
        lines.append(f'tick {draws.draw(10)}')
        lines += ['phase', 'client', f'lose {draws.draw(16)}', 'phase']
        for c in range(4):
            lines.append('client')
            for file in (2 * c, 2 * c + 1):
                verb = ['read', 'repair', 'convert', 'reclaim'][draws.draw(4)]
                lines += [f'{verb} f{file}', f'read f{file}']
        lines += ['phase', 'client', 'sweep']
    lines += [f'dump f{i}' for i in range(8)] + ['end']
    return '\n'.join(lines).encode()


def summary(seed, run):
    reads = [d.outcome for d in run.done if d.command.startswith('read ')]
    made = [d.outcome for d in run.done] + [p.partition(' ')[2] for d in run.done for p in d.parts]
    repaired = sum(int(o.split(' ')[1]) for o in made if o.startswith('repaired '))
    digest = hashlib.sha256(report.text(run).encode()).hexdigest()
    return (f'seed {seed} commands {len(run.done)} reads {sum(o.startswith("bytes ") for o in reads)}'
            f' lost {sum(o.startswith("datalost ") for o in reads)}'
            f' converted {sum(o.startswith("converted ") for o in made)} repaired {repaired} report {digest}\n')
