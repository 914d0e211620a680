#!/usr/bin/env python3
"""How many samples a second `lv2fx render` gives, beside a plain C loop that does the same work.

Run it anywhere, after the program was built: bench/render.py [RUNS]
A constant goes through 1, 8 and 31 amplifiers, at blocks of 64 and 512 frames, 1,024 blocks. 'all' is the whole process by
the wall clock, with its start and the writing of the files, the best of RUNS runs (20 if not given); 'own' is the processor
time that the process spent outside the system, so without the writing, the mean of the runs. The C loop (gcc -O2) computes a
constant, the gains, 16 bits, and writes the same file; it is left out where gcc isn't installed. A sample is one frame of
one channel, however many amplifiers it went through.
"""
import os, resource, shutil, subprocess, sys, tempfile, time

HERE = os.path.dirname(os.path.abspath(__file__))
PROGRAM = os.path.join(HERE, '..', 'crates', 'lv2fx', 'out', 'lv2fx')
BLOCKS = 1024
C_LOOP = r'''
#include <stdint.h>
#include <stdio.h>
#include <stdlib.h>
static int32_t clamp(__int128 x) { return x > INT32_MAX ? INT32_MAX : x < INT32_MIN ? INT32_MIN : (int32_t)x; }
int main(int argc, char **argv) {
    int amps = atoi(argv[1]), block = atoi(argv[2]), blocks = atoi(argv[3]);
    int64_t factor = 16777215;
    volatile int64_t value = 8388608;
    int32_t *x = malloc(block * sizeof *x);
    int16_t *pcm = malloc((size_t)block * blocks * sizeof *pcm);
    for (int b = 0; b < blocks; b++) {
        for (int f = 0; f < block; f++) x[f] = clamp(value);
        for (int a = 0; a < amps; a++)
            for (int f = 0; f < block; f++) x[f] = clamp(((__int128)x[f] * factor) >> 24);
        for (int f = 0; f < block; f++) {
            int32_t s = x[f] >> 9;
            pcm[(size_t)b * block + f] = s > 32767 ? 32767 : s < -32768 ? -32768 : s;
        }
    }
    FILE *out = fopen(argv[4], "wb");
    fwrite(pcm, sizeof *pcm, (size_t)block * blocks, out);
    return fclose(out);
}
'''


def session(amps, block):
    lines = ['lv2fx 1', f'block {block}', f'blocks {BLOCKS}', 'inst c urn:lv2fx:const']
    lines += [f'inst g{k} urn:lv2fx:amp' for k in range(amps)]
    lines += ['set c value 0.5'] + [f'set g{k} gain 0.99999994' for k in range(amps)]
    lines += ['cable c out g0 in'] + [f'cable g{k} out g{k + 1} in' for k in range(amps - 1)]
    return '\n'.join(lines + [f'out g{amps - 1} out', ''])


def best(words, folder, runs):
    """The least wall time, and the mean time outside the system, in seconds."""
    walls = []
    before = resource.getrusage(resource.RUSAGE_CHILDREN).ru_utime
    for _ in range(runs):
        start = time.perf_counter()
        subprocess.run(words, cwd=folder, check=True, stdout=subprocess.DEVNULL)
        walls.append(time.perf_counter() - start)
    own = resource.getrusage(resource.RUSAGE_CHILDREN).ru_utime - before
    return min(walls), max(own / runs, 1e-6)


def main():
    runs = int(sys.argv[1]) if len(sys.argv) > 1 else 20
    if not os.path.exists(PROGRAM):
        sys.exit('bench: the program is not built; `./lv2fx` builds it')
    gcc = shutil.which('gcc')
    with tempfile.TemporaryDirectory() as folder:
        if gcc:
            with open(os.path.join(folder, 'loop.c'), 'w') as source:
                source.write(C_LOOP)
            subprocess.run([gcc, '-O2', '-o', 'loop', 'loop.c'], cwd=folder, check=True)
        print('amps  block | lv2fx all   own | C loop all   own | ratio all   own   (million samples a second)')
        for amps in (1, 8, 31):
            for block in (64, 512):
                with open(os.path.join(folder, 'bench.ses'), 'w') as file:
                    file.write(session(amps, block))
                samples = block * BLOCKS / 1e6
                ours = [samples / t for t in best([PROGRAM, 'render', 'bench.ses', 'ours'], folder, runs)]
                row = f'{amps:4}  {block:5} | {ours[0]:9.1f} {ours[1]:5.1f} |'
                if gcc:
                    loop = [samples / t for t in best(['./loop', str(amps), str(block), str(BLOCKS), 'theirs.pcm'], folder, runs)]
                    same = open(os.path.join(folder, 'ours.pcm'), 'rb').read() == open(os.path.join(folder, 'theirs.pcm'), 'rb').read()
                    row += f' {loop[0]:10.1f} {loop[1]:5.1f} | {ours[0] / loop[0]:9.2f} {ours[1] / loop[1]:5.2f}' + ('' if same else '  DIFFERENT SOUND')
                print(row)


main()
