"""The texts of a run: the report, its dumps, the report as JSON, the line of `check`."""
import hashlib
import json

from engines import MEMORY
from running import Done
from store import HERE, spelled


def counts(io):
    return 'io ' + ' '.join(map(str, io))


def total(done):
    return [sum(column) for column in zip([0] * 7, *(d.io for d in done))]


def dump(file):
    """The lines of a file's layout."""
    name = file.script.named(file.number)
    published = 'none' if file.published == 0 else 'removed' if file.removed() else file.published - 1
    yield f'dump {name} published {published} length {len(file.data)}'
    for g, closed in enumerate(file.closed):
        yield f'gen {g} closed' if closed else f'gen {g} kept'
    for chunk in file.names:
        state = file.states[chunk]
        if state == HERE:
            state = 'here ' + hashlib.sha256(file.cell(chunk)).hexdigest()
        elif isinstance(state, int):
            state = f'lost {state}'
        yield f'chunk {spelled(chunk)} server {file.server(chunk)} {state}'


def dumps(run):
    return [line for number in run.script.dumps for line in dump(run.files[number])]


def text(run):
    lines = ['report 1']
    for done in run.done:
        place = '.'.join(map(str, done.place))
        lines.append(f'{place} {done.command}: {done.outcome} {counts(done.io)}')
        lines += [f'{place} {part}' for part in done.parts]
    lines += dumps(run)
    lines.append('total ' + counts(total(run.done)))
    lines.append('converts ' + counts(total([d for d in run.done if d.converts()])))
    return '\n'.join(lines) + '\nend\n'


def as_json(run):
    told = {
        'commands': [{
            'phase': done.place[0], 'client': done.place[1], 'command': done.place[2], 'io': done.io,
            'text': f'{done.command}: {done.outcome}', 'parts': done.parts,
        } for done in run.done],
        'dumps': dumps(run),
        'total': total(run.done),
        'converts': total([d for d in run.done if d.converts()]),
    }
    return json.dumps(told, sort_keys=True, separators=(',', ':')) + '\n'


def checked(script):
    tolerances = ' '.join(str(s.copies + s.parities) for s in script.stages)
    return f'family ok stages {len(script.stages)} tolerance {tolerances}\n'


def status(run):
    return 5 if any(done.lacked() for done in run.done) else 0


def outcomes(report):
    """The outcomes of a report as text or JSON, by their places; what isn't one is a ValueError."""
    if report.startswith('{'):
        found = {}
        for told in json.loads(report)['commands']:
            command, _, outcome = told['text'].partition(': ')
            place = told['phase'], told['client'], told['command']
            found[place] = Done(place, command, outcome, told['io'], told['parts'])
        return found
    found, last = {}, None
    for line in report.split('\n')[1:]:
        head, _, behind = line.partition(' ')
        if head in ('dump', 'total'):
            break
        place = tuple(map(int, head.split('.')))
        if ': ' in behind:
            command, _, rest = behind.partition(': ')
            outcome, _, io = rest.rpartition(' io ')
            found[place] = last = Done(place, command, outcome, list(map(int, io.split(' '))))
        elif last is not None and last.place == place:
            last.parts.append(behind)
    return found


def lacks(report):
    return any(done.lacked() for done in outcomes(report).values()) if MEMORY in report else False
