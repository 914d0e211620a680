#!/usr/bin/env python3
"""How fast sequences of events are written and read, in nanoseconds an event, beside the same loops in C (gcc -O2) in the same run.

Run it anywhere, after the program was built (`rt run` in crates/event_count): bench/atoms.py
`forge` writes a sequence of 1,000 events, each an Int, `walk` goes over the events of a sequence that was looked at, and `read` looks at
its bytes as an atom and then goes over them. Each is run 100 and 20,100 times; the time of one is the difference by the number, in
processor time, the least of seven, with the two programs in turn.
"""
import os, shutil, subprocess, sys, tempfile

HERE = os.path.dirname(os.path.abspath(__file__))
PROGRAM = os.path.join(HERE, '..', 'crates', 'event_count', 'out', 'event_count')
KINDS = ['forge', 'walk', 'read']
ROUNDS = 200
EVENTS = 100 * 1000


def timed(program, kind, rounds):
    start = os.times().children_user
    subprocess.run([program, kind, str(rounds)], check=True, stdout=subprocess.DEVNULL)
    return os.times().children_user - start


def nanoseconds(program, kind):
    once = timed(program, kind, 1)
    return (timed(program, kind, 1 + ROUNDS) - once) / (ROUNDS * EVENTS) * 1e9


def main():
    if not os.path.exists(PROGRAM):
        sys.exit('bench: the program is not built; `rt run` in crates/event_count builds it')
    with tempfile.TemporaryDirectory() as folder:
        programs = {'lv2fx': PROGRAM}
        if shutil.which('gcc'):
            programs['C'] = os.path.join(folder, 'atoms')
            subprocess.run(['gcc', '-O2', '-o', programs['C'], os.path.join(HERE, 'atoms.c')], check=True)
        print('events           ' + ''.join(f'{who:>9}' for who in programs) + '    times C')
        for kind in KINDS:
            least = {who: 1e30 for who in programs}
            for _ in range(7):
                for who, program in programs.items():
                    least[who] = min(least[who], nanoseconds(program, kind))
            ratio = f'{least["lv2fx"] / least["C"]:11.2f}' if 'C' in least else ''
            print(f'{kind:17}' + ''.join(f'{least[who]:9.2f}' for who in programs) + ratio)


if __name__ == '__main__':
    main()
