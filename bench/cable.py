#!/usr/bin/env python3
"""How long a message of 264 bytes takes through a ring of 64 cells, in nanoseconds, beside a ring in C (gcc -O2) in the same run.

Run it anywhere, after the program was built (`rt run` in crates/message_count): bench/cable.py
`threads` is from one thread to another, `turns` one thread that sends, looks and takes in turn. All atomic steps are sequentially
consistent. `C` draws a ticket for each send, look and take, as the cable does; `plain C` draws none. The time of one is the difference
between 1,000 and 1,001,000 messages by the number, the median of nine, with the programs in turn.
"""
import os, shutil, statistics, subprocess, sys, tempfile, time

HERE = os.path.dirname(os.path.abspath(__file__))
PROGRAM = os.path.join(HERE, '..', 'crates', 'message_count', 'out', 'message_count')
ROUNDS = 1000


def timed(words):
    start = time.perf_counter()
    subprocess.run(words, check=True, stdout=subprocess.DEVNULL)
    return time.perf_counter() - start


def nanoseconds(program, way, more):
    once = timed([program, way, '1'] + more)
    return (timed([program, way, str(1 + ROUNDS)] + more) - once) / (ROUNDS * 1000) * 1e9


def main():
    if not os.path.exists(PROGRAM):
        sys.exit('bench: the program is not built; `rt run` in crates/message_count builds it')
    with tempfile.TemporaryDirectory() as folder:
        programs = {'lv2fx': (PROGRAM, [])}
        if shutil.which('gcc'):
            ring = os.path.join(folder, 'cable')
            subprocess.run(['gcc', '-O2', '-pthread', '-o', ring, os.path.join(HERE, 'cable.c')], check=True)
            programs['C'] = (ring, [])
            programs['plain C'] = (ring, ['plain'])
        print('way       ' + ''.join(f'{who:>10}' for who in programs))
        for way in ['threads', 'turns']:
            times = {who: [] for who in programs}
            for _ in range(9):
                for who, (program, more) in programs.items():
                    times[who].append(nanoseconds(program, way, more))
            print(f'{way:10}' + ''.join(f'{statistics.median(times[who]):10.1f}' for who in programs))


if __name__ == '__main__':
    main()
