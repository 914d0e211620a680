#!/usr/bin/env python3
"""How fast the kernels of sound are, in nanoseconds for a block of 512 frames, beside the same loops in C (gcc -O2) in the same run.

Run it anywhere, after the program was built (`rt run` in crates/kernel_count): bench/kernels.py
Each kernel is run 1,000 and 101,000 times; the time of one is the difference by the number, the least of seven, with the two programs in turn.
`gain` has a factor just below 1, `gain_of_any` one above 128.
"""
import os, shutil, subprocess, sys, tempfile, time

HERE = os.path.dirname(os.path.abspath(__file__))
PROGRAM = os.path.join(HERE, '..', 'crates', 'kernel_count', 'out', 'kernel_count')
KERNELS = ['add', 'finish', 'gain', 'gain_of_any', 'pcm']
ROUNDS = 100


def timed(program, kernel, rounds):
    start = time.perf_counter()
    subprocess.run([program, kernel, str(rounds)], check=True, stdout=subprocess.DEVNULL)
    return time.perf_counter() - start


def nanoseconds(program, kernel):
    once = timed(program, kernel, 1)
    return (timed(program, kernel, 1 + ROUNDS) - once) / (ROUNDS * 1000) * 1e9


def main():
    if not os.path.exists(PROGRAM):
        sys.exit('bench: the program is not built; `rt run` in crates/kernel_count builds it')
    with tempfile.TemporaryDirectory() as folder:
        programs = {'lv2fx': PROGRAM}
        if shutil.which('gcc'):
            programs['C'] = os.path.join(folder, 'kernels')
            subprocess.run(['gcc', '-O2', '-o', programs['C'], os.path.join(HERE, 'kernels.c')], check=True)
        print('kernel           ' + ''.join(f'{who:>9}' for who in programs) + '    times C')
        for kernel in KERNELS:
            least = {who: 1e30 for who in programs}
            for _ in range(7):
                for who, program in programs.items():
                    least[who] = min(least[who], nanoseconds(program, kernel))
            ratio = f'{least["lv2fx"] / least["C"]:11.2f}' if 'C' in least else ''
            print(f'{kernel:17}' + ''.join(f'{least[who]:9.1f}' for who in programs) + ratio)


if __name__ == '__main__':
    main()
