"""What each command does with one file, chunk operation by chunk operation.

An engine answers its outcome's text, or raises Refusal with it. Each operation is counted. Where a
command is known to have lacked memory, its hand has a budget: so many operations, and then memory
ran out.
"""
import hashlib

from store import DROPPED, HERE, UNBORN, spelled

READS = {'D': 0, 'C': 1, 'P': 2}
MISSES, WRITES, PROBES, DROPS = 3, 4, 5, 6
MEMORY = 'memory'


class Refusal(Exception):
    """An outcome other than the one that was asked for, as its text."""


class Hand:
    """One command's access to one file; `io` may be shared by several hands of one command."""

    def __init__(self, file, holds, away=(), io=None, budget=None):
        self.file, self.holds, self.away = file, holds, away
        self.io = [0] * 7 if io is None else io
        self.budget = budget
        self.done = 0

    def held(self):
        """The generation that this client holds of the file, or None."""
        return self.holds.get(self.file.number)

    def spend(self):
        if self.budget is not None and self.done >= self.budget:
            raise Refusal(MEMORY)
        self.done += 1

    def whole(self):
        """All operations are done; a command that lacked memory goes no further."""
        if self.budget is not None:
            raise Refusal(MEMORY)

    def asked(self, name):
        server = self.file.server(name)
        return ('away', server) if server in self.away else self.file.states[name]

    def get(self, name):
        self.spend()
        state = self.asked(name)
        self.io[READS[name[0]] if state == HERE else MISSES] += 1
        return state

    def probe(self, name):
        self.spend()
        self.io[PROBES] += 1
        return self.asked(name)

    def write(self, name):
        """A put or a restore."""
        self.spend()
        self.io[WRITES] += 1
        self.file.states[name] = HERE

    def discard(self, name):
        self.spend()
        if self.file.states[name] in (UNBORN, DROPPED):
            return 0
        self.io[DROPS] += 1
        self.file.states[name] = DROPPED
        return 1

    def pin(self):
        """The published generation."""
        if self.file.published == 0:
            raise Refusal('absent')
        if self.file.removed():
            raise Refusal('removed')
        return self.file.published - 1


def is_lost(state):
    return isinstance(state, int)


def is_away(state):
    return isinstance(state, tuple)


class Findings:
    """What a call found of the names of one stripe, each name once, in the order found."""

    def __init__(self):
        self.found = {}

    def add(self, name, state):
        self.found.setdefault(name, state)

    def short(self, hand, g, j):
        """The refusal of a stripe from which the data can't be had."""
        lost = [f'{spelled(n)}:{state}' for n, state in self.found.items() if is_lost(state)]
        if len(lost) > hand.file.tolerance(g):
            return Refusal(f'datalost gen {g} stripe {j} lost ' + ' '.join(lost))
        name, state = next((n, state) for n, state in self.found.items() if is_away(state))
        return Refusal(f'unreachable gen {g} stripe {j} {spelled(name)} server {state[1]}')


def ask_stripe(hand, g, j, findings):
    """Gets what the data of a stripe can be made of, and answers how many chunks were had."""
    stage = hand.file.script.stages[g]
    first = j * stage.width
    had, count = 0, min(first + stage.width, hand.file.chunks) - first
    for i in range(first, first + count):
        for name in [('D', i)] + [('C', c, i) for c in range(stage.copies)]:
            state = hand.get(name)
            findings.add(name, state)
            if state == HERE:
                had += 1
                break
    for p in range(stage.parities):
        if had == count:
            break
        name = ('P', stage.width, j, p)
        state = hand.get(name)
        findings.add(name, state)
        had += state == HERE
    if had < count:
        raise findings.short(hand, g, j)
    return had


def create(hand):
    file = hand.file
    if file.published > 0:
        raise Refusal('exists')
    for name in file.held[0]:
        hand.probe(name)
    for name in file.held[0]:
        hand.write(name)
    hand.whole()
    file.published = 1
    return 'created'


def read(hand):
    file = hand.file
    g = hand.held() if hand.held() is not None else hand.pin()
    had = sum(ask_stripe(hand, g, j, Findings()) for j in range(file.stripes(g)))
    hand.whole()
    digest = hashlib.sha256(file.data).hexdigest()
    return f'bytes {len(file.data)} gen {g} from {had} sha256 {digest}'


def repair(hand):
    g = hand.pin()
    restored = skipped = 0
    for j in range(hand.file.stripes(g)):
        findings, lost = Findings(), []
        for name in hand.file.stripe_names(g, j):
            state = hand.probe(name)
            findings.add(name, state)
            skipped += is_away(state)
            if is_lost(state):
                lost.append(name)
        if lost:
            ask_stripe(hand, g, j, findings)
        for name in lost:
            hand.write(name)
            restored += 1
    hand.whole()
    return f'repaired {restored} skipped {skipped}'


def convert(hand, upto, stop=None):
    """One stage further; after `stop` operations it gives up where another is due."""
    file, stages = hand.file, hand.file.script.stages
    g = hand.pin()
    if g >= upto:
        raise Refusal(f'last {g}')
    made, begun = 0, hand.done

    def due():
        if stop is not None and hand.done - begun >= stop:
            raise Refusal(f'stopped {g} to {g + 1} made {made}')

    missing = []
    for name in file.held[g + 1]:
        due()
        state = hand.probe(name)
        meets(name, state, file.holds(g, name))
        if state != HERE:
            missing.append(name)
    factor = stages[g + 1].width // stages[g].width
    for name in missing:
        _, _, stripe, point = name
        for initial in range(stripe * factor, min((stripe + 1) * factor, file.stripes(g))):
            due()
            part = ('P', stages[g].width, initial, point)
            meets(part, hand.get(part), True)
        due()
        hand.write(name)
        made += 1
    hand.whole()
    file.published = g + 2
    return f'converted {g} to {g + 1} made {made}'


def meets(name, state, wanted):
    """Ends a conversion at a chunk that can't be reached, or that it wants and that is lost."""
    if is_away(state):
        raise Refusal(f'unreachable {spelled(name)} server {state[1]}')
    if is_lost(state) and wanted:
        raise Refusal(f'needs {spelled(name)}:{state}')


def reclaim(hand):
    file = hand.file
    if file.published == 0:
        raise Refusal('absent')
    hand.whole()
    closed, pinned, free = 0, [], set()
    for g in range(min(file.published - 1, file.stages())):
        if not file.closed[g] and hand.held() == g:
            pinned.append(f'{g}:1')
            continue
        closed += not file.closed[g]
        file.closed[g] = True
        free.add(g)
    names = [n for n in file.names if all(g in free for g in range(file.stages()) if file.holds(g, n))]
    dropped = sum(hand.discard(name) for name in names)
    return f'reclaimed closed {closed} dropped {dropped} pinned {",".join(pinned) or "-"}'


def remove(hand):
    hand.pin()
    hand.file.published = hand.file.stages() + 1
    return 'removed now'


def hold(hand):
    if hand.held() is not None:
        raise Refusal(f'already {hand.held()}')
    g = hand.pin()
    hand.holds[hand.file.number] = g
    return f'held {g}'


def release(hand):
    g = hand.holds.pop(hand.file.number, None)
    if g is None:
        raise Refusal('notheld')
    return f'released {g}'
