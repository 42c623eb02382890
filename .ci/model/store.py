"""Files as chunks on servers: what their generations hold, and what became of each chunk.

A name of a chunk is a tuple: ('D', i), ('C', c, i) or ('P', width, stripe, point).
"""
import field
from family import copied_width

UNBORN, HERE, DROPPED = 'unborn', 'here', 'dropped'


def spelled(name):
    return name[0] + '.'.join(map(str, name[1:]))


class File:
    """A file between two commands. A lost chunk's state is the line that lost it."""

    def __init__(self, script, number):
        self.script, self.number = script, number
        self.data = list(script.files.values())[number]
        self.chunks = -(-len(self.data) // script.chunk)
        self.names = list(self._names())
        self.held = [[n for n in self.names if self.holds(g, n)] for g in range(self.stages())]
        self.states = dict.fromkeys(self.names, UNBORN)
        self.published = 0
        self.closed = [False] * self.stages()
        self.born = None

    def stages(self):
        return len(self.script.stages)

    def removed(self):
        return self.published > self.stages()

    def _names(self):
        stages = self.script.stages
        yield from (('D', i) for i in range(self.chunks))
        yield from (('C', c, i) for c in range(stages[0].copies) for i in range(self.chunks))
        for width in sorted({s.width for s in stages}):
            most = max(s.parities for s in stages if s.width == width)
            yield from (('P', width, j, p) for j in range(-(-self.chunks // width)) for p in range(most))

    def holds(self, g, name):
        stage = self.script.stages[g]
        if name[0] == 'P':
            return name[1] == stage.width and name[3] < stage.parities
        return name[0] == 'D' or name[1] < stage.copies

    def stripes(self, g):
        return -(-self.chunks // self.script.stages[g].width)

    def stripe_names(self, g, j):
        width = self.script.stages[g].width
        return [n for n in self.held[g] if (n[2] if n[0] == 'P' else n[-1] // width) == j]

    def tolerance(self, g):
        return self.script.stages[g].copies + self.script.stages[g].parities

    def server(self, name):
        widest = max(s.width for s in self.script.stages)
        if name[0] == 'D':
            column = name[1] % widest
        elif name[0] == 'C':
            column = (name[2] + (name[1] + 1) * copied_width(self.script.stages)) % widest
        else:
            column = widest + name[3]
        return (self.number + column) % self.script.servers

    def chunk(self, i):
        size = self.script.chunk
        return self.data[i * size:(i + 1) * size].ljust(size, b'\0')

    def cell(self, name):
        """The bytes that the plain encoding gives the name."""
        if name[0] != 'P':
            return self.chunk(name[-1])
        _, width, stripe, point = name
        total = bytes(self.script.chunk)
        for i in range(stripe * width, min((stripe + 1) * width, self.chunks)):
            factor = field.power(self.script.points[point], i - stripe * width)
            total = field.added(total, field.scaled(factor, self.chunk(i)))
        return total

    def age(self, now):
        return 0 if self.born is None else now - self.born

    def due(self, now):
        """The greatest stage whose threshold is at most the age."""
        return max(g for g, least in enumerate(self.script.policy) if least <= self.age(now))
