"""A run of a script, with one client behind the other in each phase.

That is the run where each phase has one client, and where no two clients of a phase use one file. A
run may be led by a report in which commands lacked memory: these then stop where the report says,
and the run goes on from what they left.
"""
import copy
import itertools
from dataclasses import dataclass, field

import engines
from engines import MEMORY, Hand, Refusal
from store import File

NEVER_LACK = ('hold', 'release', 'remove')


@dataclass
class Done:
    """A command's outcome: its place, its text in a script, what came of it, its parts, its counts."""
    place: tuple
    command: str
    outcome: str
    io: list
    parts: list = field(default_factory=list)

    def lacked(self):
        return self.outcome == MEMORY or any(part.endswith(' ' + MEMORY) for part in self.parts)

    def converts(self):
        return self.command.split(' ')[0] in ('convert', 'sweep')


class Strange(Exception):
    """A report that no run of its script gives."""


def is_plain(script):
    """Whether no phase has two clients on one file, so that the order of their steps doesn't matter."""
    for clients in script.phases():
        if len(clients) < 2:
            continue
        files = [{c.file for c in client} for client in clients]
        if any(None in used for used in files) or sum(map(len, files)) > len(set().union(*files)):
            return False
    return True


class Run:
    """The run of a whole script. `told` has the outcomes of a report by their places."""

    def __init__(self, script, told=None, orders=None):
        self.script, self.told, self.orders = script, told or {}, orders or {}
        self.files = [File(script, number) for number in range(len(script.files))]
        self.now = 0
        self.done = []
        phase = 0
        for kind, item in script.items:
            if kind == 'tick':
                self.now += item
            else:
                phase += 1
                self._phase(phase, item)
        self.done.sort(key=lambda done: done.place)

    def _phase(self, phase, clients):
        uncreated = [file for file in self.files if file.published == 0]
        for c in self.orders.get(phase, range(len(clients))):
            holds = {}
            for k, command in enumerate(clients[c], 1):
                self.done.append(self._command((phase, c + 1, k), command, holds))
        for file in uncreated:
            if file.published > 0:
                file.born = self.now

    def _command(self, place, command, holds):
        told = self.told.get(place)
        done = Done(place, self.script.told(command), '', [0] * 7)
        if told and told.lacked():
            self._lacking(done, command, holds, told)
        else:
            self._plain(done, command, holds)
        return done

    def _plain(self, done, command, holds):
        try:
            done.outcome = self._act(done, command, holds)
        except Refusal as refusal:
            done.outcome = str(refusal)

    def _act(self, done, command, holds, budget=None):
        if command.verb == 'lose':
            return self._lose(command)
        if command.verb == 'sweep':
            return self._sweep(done, holds, [])
        hand = Hand(self.files[command.file], holds, command.away, done.io, budget)
        if command.verb == 'convert':
            stop = command.stop if budget is None else None
            return engines.convert(hand, len(self.script.stages) - 1, stop)
        return getattr(engines, command.verb)(hand)

    def _lose(self, command):
        lost = 0
        for file in self.files:
            for name in file.names:
                if file.server(name) == command.server and file.states[name] == engines.HERE:
                    file.states[name] = command.line
                    lost += 1
        return f'lost {lost}'

    def _sweep(self, done, holds, budgets):
        """Converts what is old enough; the n-th conversion that lacks memory has the n-th budget."""
        swept = 0
        lacking = {part: budget for part, budget in budgets}
        for file in self.files:
            due = file.due(self.now)
            for _ in range(due):
                hand = Hand(file, holds, (), done.io, lacking.get(len(done.parts)))
                try:
                    outcome = engines.convert(hand, due)
                except Refusal as refusal:
                    outcome = str(refusal)
                if outcome.split(' ')[0] not in ('last', 'absent', 'removed'):
                    done.parts.append(f'{self.script.named(file.number)} {outcome}')
                if not outcome.startswith('converted'):
                    break
                swept += 1
        return f'swept {swept}'

    def _lacking(self, done, command, holds, told):
        """A command that lacked memory: it did the front of its operations that its counts tell."""
        if command.verb in NEVER_LACK:
            raise Strange(f'{done.place}: {command.verb} takes no memory')
        if told.outcome == MEMORY:
            done.outcome = MEMORY
            if sum(told.io) == 0:
                return
            if command.verb in ('create', 'reclaim', 'lose', 'sweep'):
                raise Strange(f'{done.place}: {command.verb} lacked memory and did something')
            if command.verb == 'convert' and command.stop is not None and sum(told.io) > command.stop:
                raise Strange(f'{done.place}: more operations than it may make before it stops')
            try:
                self._act(done, command, holds, sum(told.io))
            except Refusal as refusal:
                # The answer of a short asking has a list, which takes memory when the last get is done.
                is_short = command.verb in ('read', 'repair') and str(refusal).startswith(('datalost', 'unreachable'))
                if str(refusal) != MEMORY and not is_short:
                    raise Strange(f'{done.place}: says {refusal} before it lacks memory') from refusal
            return
        self._lacking_sweep(done, holds, told)

    def _lacking_sweep(self, done, holds, told):
        parts = [n for n, part in enumerate(told.parts) if part.endswith(' ' + MEMORY)]
        kept = copy.deepcopy([(file.states, file.published) for file in self.files])
        for budgets in itertools.product(range(sum(told.io) + 1), repeat=len(parts)):
            done.io[:], done.parts[:] = [0] * 7, []
            for file, (states, published) in zip(self.files, kept):
                file.states, file.published = dict(states), published
            done.outcome = self._sweep(done, holds, list(zip(parts, budgets)))
            if done.io == told.io and done.parts == told.parts:
                return
        raise Strange(f'{done.place}: no sweep that lacks memory in {len(parts)} parts has these counts')
