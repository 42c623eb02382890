"""Judges what a run wrote that lacked memory, by the model's rules."""
import itertools
import os
import re
import sys

sys.path.insert(0, os.path.join(os.path.dirname(os.path.abspath(__file__)), '..', 'model'))

import report
import script
import seeds
from running import Run, Strange, is_plain

SEED = re.compile(r'seed (\d+) commands (\d+) reads (\d+) lost (\d+) converted (\d+) repaired (\d+) '
                  r'report [0-9a-f]{64}\n\Z')


class Case:
    """Words and a text, with what may be written for them. Of its growths each `step`-th is refused."""

    def __init__(self, name, words, text=b'', step=1):
        self.name, self.words, self.text, self.step = name, words, text, step
        self.seed = int(words[1]) if words[0] == 'seed' else None
        self.refusal = self.script = None
        self.orders = [{}]
        try:
            self.script = script.read(text if self.seed is None else seeds.script_of(self.seed))
        except script.Refused as refused:
            self.refusal = str(refused)
            return
        if not is_plain(self.script):
            self.orders = list(self._orders())
        self.plain = [self._text(Run(self.script, {}, orders)) for orders in self.orders]

    def _orders(self):
        """All orders of the clients of each phase, one client behind the other."""
        phases = self.script.phases()
        each = [itertools.permutations(range(len(clients))) for clients in phases]
        return (dict(enumerate(orders, 1)) for orders in itertools.product(*each))

    def _text(self, run):
        if self.words[0] == 'check':
            return report.checked(self.script)
        if self.seed is not None:
            return seeds.summary(self.seed, run)
        return report.as_json(run) if len(self.words) > 1 else report.text(run)

    def wrong(self, written, err, status):
        """What is wrong with how a run ended that may have lacked memory; None where nothing is."""
        if err or status is None or status < 0:
            return f'status {status}, standard error {err[:200]}'
        if self.refusal:
            holds = (written, status) in ((self.refusal, 1), ('', 5))
            return None if holds else f'status {status} with {written[:200]}'
        if status == 0:
            return None if written in self.plain else f'status 0 with {written[:200]}'
        if status != 5:
            return f'status {status} with {written[:200]}'
        if written == '':
            return None
        if self.words[0] == 'check':
            return f'status 5 with {written[:200]}'
        return self._wrong_seed(written) if self.seed is not None else self._wrong_report(written)

    def _wrong_seed(self, written):
        """A summary tells no outcome, so only its sums are looked at."""
        found = SEED.match(written)
        if not found:
            return f'no summary: {written[:200]}'
        seed, commands, reads, lost = map(int, found.groups()[:4])
        asked = sum(c.verb == 'read' for clients in self.script.phases() for client in clients for c in client)
        if seed != self.seed or commands != 152 or reads + lost > asked:
            return f'a summary of another run: {written}'
        return None

    def _wrong_report(self, written):
        """A report that lacked memory is that of a run whose commands lacked it where it says so."""
        try:
            told = report.outcomes(written)
        except (ValueError, KeyError):
            return f'no report: {written[:200]}'
        if not any(done.lacked() for done in told.values()):
            return 'status 5, and no command lacked memory'
        why = None
        for orders in self.orders:
            try:
                if self._text(Run(self.script, told, orders)) == written:
                    return None
            except Strange as strange:
                why = strange
        return f'a report that no run gives ({why}): {written[:2000]}'
