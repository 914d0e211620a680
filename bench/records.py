#!/usr/bin/env python3
"""How fast step records are read and written, and how much memory an entry takes.

Run it anywhere, after the program was built (`rt run` in crates/record_count): bench/records.py
The record has 2^20 lines: blocks of audio with 30 instances, of which one has a job in each block that its worker does, each with
its response. The program reads the file once and its entries 1 and 11 times, or writes its text 0 and 10 times; the time of one
reading or writing is a tenth of the difference, the least of five. Memory is the greatest resident size of the process that reads
once, less the file's bytes: the process itself, a few megabytes, counts too.
"""
import itertools, os, sys, tempfile, time, subprocess

HERE = os.path.dirname(os.path.abspath(__file__))
PROGRAM = os.path.join(HERE, '..', 'crates', 'record_count', 'out', 'record_count')
LINES = 1 << 20


def block(number):
    worked = ['A begin run 0', 'A send J0', 'A end run 0', 'W1 take J0', 'W1 begin work 0', 'W1 send R0', 'W1 end work 0', 'A look R0 1',
              'A take R0', 'A begin response 0', 'A end response 0', 'A begin end_run 0', 'A end end_run 0']
    silent = [f'A {edge} run {inst}' for inst in range(1, 30) for edge in ('begin', 'end')]
    return [f'A block {number}', 'A look CA 0', *worked, *silent, f'A done {number}']


def lines():
    """The record's lines, one after the other, so that this process stays small: a process that it starts begins with its size."""
    yield 'lv2fx-record 1'
    left = LINES - 1
    for number in itertools.count():
        for line in block(number):
            if left == 0:
                yield 'end'
                return
            left -= 1
            yield line


def run(path, reads, writes):
    """Seconds and the greatest resident size in bytes."""
    start = time.perf_counter()
    process = subprocess.Popen([PROGRAM, path, str(reads), str(writes)], stdout=subprocess.DEVNULL)
    _, status, used = os.wait4(process.pid, 0)
    if status:
        sys.exit(f'bench: the program ended with {os.waitstatus_to_exitcode(status)}')
    return time.perf_counter() - start, used.ru_maxrss * 1024


def of_ten(less, more):
    """The time of one of ten, the least of five."""
    return min(run(*more)[0] - run(*less)[0] for _ in range(5)) / 10


def main():
    if not os.path.exists(PROGRAM):
        sys.exit('bench: the program is not built; `rt run` in crates/record_count builds it')
    with tempfile.TemporaryDirectory() as folder:
        large = os.path.join(folder, 'large.rec')
        with open(large, 'w') as file:
            file.writelines(line + '\n' for line in lines())
        size = os.path.getsize(large)
        reading = of_ten((large, 0, 0), (large, 10, 0))
        writing = of_ten((large, 0, 0), (large, 0, 10))
        memory = run(large, 0, 0)[1] - size
    print(f'{size / 1e6:.1f} MB, {LINES} entries')
    print(f'read  {reading:.4f} s, {size / reading / 1e6:.0f} MB/s, {memory / LINES:.1f} bytes an entry beside the text')
    print(f'write {writing:.4f} s, {size / writing / 1e6:.0f} MB/s')


if __name__ == '__main__':
    main()
