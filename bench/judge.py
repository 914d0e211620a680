#!/usr/bin/env python3
"""How many entries of a step record are judged in a second.

Run it anywhere, after the program was built (`rt run` in crates/judge_count): bench/judge.py
The record has 60,000 blocks of a plug-in whose run schedules a job in each: its worker does the job at once, and its response is delivered, 16
entries a block. The program reads the record and judges it 1 and 11 times; the time of one judging is a tenth of the difference, the least of
five.
"""
import os, subprocess, sys, tempfile, time

HERE = os.path.dirname(os.path.abspath(__file__))
PROGRAM = os.path.join(HERE, '..', 'crates', 'judge_count', 'out', 'judge_count')
BLOCKS = 60000
OPENING = ['C begin make 0', 'C end make 0', 'C begin activate 0', 'C end activate 0']
BLOCK = ['A look CA 0', 'A begin run 0', 'A send J0', 'A end run 0', 'W1 take J0', 'W1 begin work 0', 'W1 send R0', 'W1 end work 0',
         'A look R0 1', 'A take R0', 'A begin response 0', 'A end response 0', 'A begin end_run 0', 'A end end_run 0']
CLOSING = ['A stop', f'C beat {BLOCKS + 1}', 'C send CW1', 'W1 take CW1', 'W1 stop', 'C join', 'C begin deactivate 0', 'C end deactivate 0',
           'C begin cleanup 0', 'C end cleanup 0', 'end']


def lines():
    yield from ['lv2fx-record 1', *OPENING]
    for number in range(BLOCKS):
        yield from [f'A block {number}', *BLOCK, f'A done {number}']
    yield from CLOSING


def seconds(path, times):
    start = time.perf_counter()
    subprocess.run([PROGRAM, path, str(BLOCKS), str(times)], check=True, stdout=subprocess.DEVNULL)
    return time.perf_counter() - start


def main():
    if not os.path.exists(PROGRAM):
        sys.exit('bench: the program is not built; `rt run` in crates/judge_count builds it')
    with tempfile.TemporaryDirectory() as folder:
        path = os.path.join(folder, 'large.rec')
        with open(path, 'w') as file:
            file.writelines(line + '\n' for line in lines())
        one = min(seconds(path, 10) - seconds(path, 0) for _ in range(5)) / 10
    entries = 16 * BLOCKS + len(OPENING) + len(CLOSING)
    print(f'{entries} entries, {entries / one / 1e6:.1f} million a second')


main()
