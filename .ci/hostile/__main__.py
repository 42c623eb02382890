"""Hostile use of the built program: refused memory, failing ends, little space, all limits at once.

Usage: python3 .ci/hostile PART .. [--program PATH]

    ends      reads and writes that fail, one call after the other, in pieces of seven bytes; the ends of a shell
    traced    the same calls, failed by strace
    memory    each growth of each case is refused in turn, alone and with all behind it
    threads   no thread is given
    space     limits on the address space, from small ones up
    limits    the biggest script: what it takes, and with too little space

The gate runs `ends` and `threads`. The library is compiled into a temporary folder; what is missing is said, and
nothing is installed. Each report is judged by the model in .ci/model.
"""
import os
import sys

sys.dont_write_bytecode = True
os.chdir(os.path.join(os.path.dirname(os.path.abspath(__file__)), '..', '..'))

import ends
import memory
import space
from preload import Missing, Program

PARTS = {'ends': ends.ends, 'traced': ends.traced, 'memory': memory.memory, 'threads': memory.threads,
         'space': space.space, 'limits': space.limits}


def main(words):
    path = 'crates/morph/out/morph'
    if '--program' in words:
        at = words.index('--program')
        path = words[at + 1]
        del words[at:at + 2]
    try:
        program = Program(path)
        wrong = 0
        for part in words:
            counted, found = PARTS[part](program)
            print(f'hostile: {part}: {counted} runs, {found} wrong', flush=True)
            wrong += found
    except Missing as missing:
        print(f'hostile: {missing}')
        return 1
    return 1 if wrong else 0


sys.exit(main(sys.argv[1:]))
