"""A model of Morph, written from its definitions alone, and what it is good for.

Usage: python3 .ci/model MODE .. [--program PATH]

    compare D M L      runs the built program on D drawn scripts, M mutated ones and L at limits, and compares what it
                       writes and how it ends with the model
    drawn N [COUNT]    the same for the drawn scripts N, N + 1, ..; so also `mutated N [COUNT]` and `limits N [COUNT]`
    show KIND N        prints the words and the script of one of these, and what the model answers
    rows               compares the model and the program with rows that were worked out by hand
    run | run --json | check | seed N      answers as the program does; a script stands on standard input

The model has one client behind the other in each phase. Nothing of it is shared with the program.
"""
import sys

sys.dont_write_bytecode = True

import subprocess

import draw
import report
import rows
import script
import seeds
from running import Run, is_plain

PROGRAM = 'crates/morph/out/morph'
KINDS = {'drawn': draw.drawn, 'mutated': draw.mutated, 'limits': draw.limits}


def answer(words, text):
    """What is written for these words and this text, and the status; None where clients race."""
    if len(words) == 2 and words[0] == 'seed' and script.DECIMAL.match(words[1].encode()) and int(words[1]) < 2 ** 64:
        run = Run(script.read(seeds.script_of(int(words[1]))))
        return seeds.summary(int(words[1]), run), 0
    if words not in (['run'], ['run', '--json'], ['check']):
        return 'refused words\n', 2
    try:
        read = script.read(text)
    except script.Refused as refused:
        return str(refused), 1
    if words == ['check']:
        return report.checked(read), 0
    if not is_plain(read):
        return None
    run = Run(read)
    return (report.as_json(run) if len(words) > 1 else report.text(run)), 0


def ran(program, words, text):
    """What the program writes, on standard output and standard error together, and its status."""
    done = subprocess.run([program] + words, input=text, stdout=subprocess.PIPE, stderr=subprocess.STDOUT, timeout=120)
    return done.stdout.decode('latin-1'), done.returncode


def differs(program, name, words, text):
    """Whether the program answers otherwise than the model; says where."""
    wanted, written = answer(words, text), ran(program, words, text)
    if wanted == written or wanted is None and written[1] == 0:
        return False
    wanted = wanted or ('a report, in which clients race\n', 0)
    pairs = list(zip(wanted[0].split('\n') + [''], written[0].split('\n') + ['']))
    line = next((n for n, (a, b) in enumerate(pairs) if a != b), len(pairs) - 1)
    print(f'model: {name}, words {" ".join(words)}: status {written[1]}, wanted {wanted[1]}; line {line + 1}:')
    print(f'    wanted  {pairs[line][0][:300]}\n    written {pairs[line][1][:300]}')
    return True


def compare(program, kind, first, count):
    """The number of scripts on which the program differs from the model."""
    wrong = 0
    for number in range(first, first + count):
        words, text = KINDS[kind](number)
        wrong += differs(program, f'{kind} {number}', words, text)
    return wrong


def front(lines, wanted):
    return len(lines) >= len(wanted) and all(line.startswith(w) for line, w in zip(lines, wanted))


def worked(program):
    """The number of worked rows from which the model or the program differs."""
    wrong = 0
    stops = rows.STOPS if script.HAS_STOP else []
    for name, head, commands, wanted in rows.RUNS + stops:
        text = rows.script_of(head, commands).encode()
        outcomes = [line.split(': ', 1)[1] for line in answer(['run'], text)[0].split('\n') if ': ' in line]
        if not front(outcomes, wanted):
            print(f'model: row {name}: wanted {wanted}\n    model {outcomes}')
            wrong += 1
        wrong += differs(program, f'row {name}', ['run'], text)
    for name, word, text, wanted in rows.TEXTS:
        said = answer([word], text.encode())[0].split('\n')
        if not all(line in said for line in wanted):
            print(f'model: row {name}: wanted {wanted}\n    model {said[:5]}')
            wrong += 1
        wrong += differs(program, f'row {name}', [word], text.encode())
    text = '\n'.join(rows.FIRST).encode()
    if answer(['run', '--json'], text)[0] != rows.JSON:
        print('model: the row of the report as JSON')
        wrong += 1
    return wrong + differs(program, 'row of JSON', ['run', '--json'], text)


def main(words):
    program = PROGRAM
    if '--program' in words:
        at = words.index('--program')
        program = words[at + 1]
        del words[at:at + 2]
    if words[:1] == ['show']:
        called, text = KINDS[words[1]](int(words[2]))
        wanted, status = answer(called, text) or ('clients race', 0)
        print(' '.join(called), '\n', text.decode('latin-1'), '\nstatus', status, '\n', wanted, sep='')
        return 0
    if words[:1] == ['rows']:
        wrong = worked(program)
        print(f'model: worked rows, {wrong} wrong')
        return 1 if wrong else 0
    if words[:1] == ['compare']:
        counts = dict(zip(KINDS, map(int, words[1:])))
        wrong = worked(program) + sum(compare(program, kind, 0, count) for kind, count in counts.items())
        print(f'model: worked rows and {counts}, {wrong} wrong')
        return 1 if wrong else 0
    if words and words[0] in KINDS:
        count = int(words[2]) if len(words) > 2 else 1
        wrong = compare(program, words[0], int(words[1]), count)
        print(f'model: {count} {words[0]}, {wrong} wrong')
        return 1 if wrong else 0
    reads = words in (['run'], ['run', '--json'], ['check'])
    written, status = answer(words, sys.stdin.buffer.read() if reads else b'') or ('clients race\n', 70)
    sys.stdout.write(written)
    return status


sys.exit(main(sys.argv[1:]))
