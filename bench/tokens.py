#!/usr/bin/env python3
"""How fast the Turtle lexer is: tokens and megabytes a second, over three generated files of 12 MB.

Run it anywhere, after the program was built (`rt run` in crates/token_count): bench/tokens.py
`names` has prefixed names alone, `strings` IRIs and strings, `mixed` statements as bundles have them. The program reads a
file once and its tokens 1 and 11 times; the time of one reading is a tenth of the difference.
"""
import os, subprocess, sys, tempfile, time

HERE = os.path.dirname(os.path.abspath(__file__))
PROGRAM = os.path.join(HERE, '..', 'crates', 'token_count', 'out', 'token_count')
SIZE = 12_000_000


def filled(line):
    """Lines, numbered, up to the size."""
    parts, size, number = [], 0, 0
    while size < SIZE:
        parts.append(line(number))
        size += len(parts[-1])
        number += 1
    return ''.join(parts)


FILES = {
    'names': lambda n: f'lv2:port plugin:gain{n} doap:name units:unit ex:symbol_{n} .\n',
    'strings': lambda n: f'<http://example.org/plugins/amplifier/{n}> "A name of some length, number {n}" .\n',
    'mixed': lambda n: f'<http://e.org/p/{n}> a lv2:Plugin ; lv2:port [ lv2:index {n % 9} ; lv2:symbol "in{n}" ; lv2:default {n % 7}.5 ] .\n',
}


def timed(path, times):
    start = time.perf_counter()
    out = subprocess.run([PROGRAM, path, str(times)], check=True, capture_output=True, text=True).stdout
    return time.perf_counter() - start, int(out.split()[1])


def main():
    if not os.path.exists(PROGRAM):
        sys.exit('bench: the program is not built; `rt run` in crates/token_count builds it')
    with tempfile.TemporaryDirectory() as folder:
        print('file      million tokens a second    MB a second')
        for name, line in FILES.items():
            path = os.path.join(folder, name + '.ttl')
            with open(path, 'w') as file:
                file.write(filled(line))
            once, tokens = min(timed(path, 1) for _ in range(3))
            more, _ = min(timed(path, 11) for _ in range(3))
            each = (more - once) / 10
            print(f'{name:8}  {tokens / each / 1e6:23.1f}  {os.path.getsize(path) / each / 1e6:13.1f}')


main()
