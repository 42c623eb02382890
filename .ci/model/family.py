"""What a chain of stages, its servers and its points may be; each fault as the text behind its kind."""
from collections import namedtuple
from functools import lru_cache
from itertools import combinations

import field

Stage = namedtuple('Stage', 'width parities copies')

MOST_STAGES, MOST_WIDTH, MOST_PARITIES, MOST_COPIES, MOST_SERVERS = 4, 64, 4, 2, 128


def _stage_faults(stages):
    """The kinds of faults of single stages and of neighbours, each with the test of stage g."""
    def before(g):
        return stages[g - 1]

    return [
        ('width', lambda g: not 1 <= stages[g].width <= MOST_WIDTH),
        ('parities', lambda g: not 1 <= stages[g].parities <= MOST_PARITIES),
        ('copies', lambda g: stages[g].copies > MOST_COPIES),
        ('notmultiple', lambda g: g > 0 and stages[g].width % before(g).width != 0),
        ('paritiesgrow', lambda g: g > 0 and stages[g].parities > before(g).parities),
        ('copiesgrow', lambda g: g > 0 and stages[g].copies > before(g).copies),
        ('paritiesoverwidth', lambda g: g > 0 and stages[g].width > before(g).width
                                        and stages[g].parities > before(g).width),
    ]


def shape_fault(stages, servers):
    """The first fault of the stages, kind by kind and then by stage; None where there is none."""
    if not stages:
        return 'nostage'
    if len(stages) > MOST_STAGES:
        return 'toomanystages'
    for kind, wrong in _stage_faults(stages):
        for g in range(len(stages)):
            if wrong(g):
                return f'{kind} {g}'
    widest = max(s.width for s in stages)
    if stages[0].copies > 0 and widest < (stages[0].copies + 1) * copied_width(stages):
        return 'copiesdontfit'
    wanted = widest + stages[0].parities
    if not wanted <= servers <= MOST_SERVERS:
        return f'servers {wanted}'
    return None


def copied_width(stages):
    """The greatest width among the stages with copies, and 0 where there is none."""
    return max((s.width for s in stages if s.copies > 0), default=0)


def family_fault(stages, points):
    """The first fault of the points over stages without a fault; None where there is none."""
    if len(points) != stages[0].parities:
        return f'pointcount {len(points)}'
    if 0 in points:
        return f'pointzero {points.index(0)}'
    for i, j in combinations(range(len(points)), 2):
        if points[i] == points[j]:
            return f'pointtwice {i} {j}'
    for g, stage in enumerate(stages):
        found = undecodable(tuple(points[:stage.parities]), stage.width)
        if found:
            places, kernel = found
            return f'undecodable {g} places {spaced(places)} kernel {spaced(kernel)}'
    return None


def spaced(numbers):
    return ' '.join(map(str, numbers))


@lru_cache(maxsize=None)
def undecodable(points, width):
    """The first set of places that the others don't give, and its kernel; None where there is none.

    A set has as many places as there are points, the data places first and then the parities.
    """
    count = len(points)
    powers = [[field.power(point, i) for point in points] for i in range(width)]
    for places in combinations(range(width + count), count):
        erased = [i for i in places if i < width]
        surviving = [p for p in range(count) if width + p not in places]
        kernel = field.kernel([[powers[i][p] for p in surviving] for i in erased])
        if kernel is not None:
            return places, kernel
    return None
