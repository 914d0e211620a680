#!/usr/bin/env python3
"""How fast `lv2fx check` lists a bundle, and how much memory it takes, beside `serdi` and `sordi` where they are installed.

Run it anywhere, after the program was built: bench/check.py
`bundle` is a manifest of 12 MB with 2^18 distinct triples, written as bundles are. The others are legal documents that are bad
for a careless reader, and one that no reader takes: a million open brackets. Each time is the whole process by the wall clock,
the best of three runs; memory is the process's greatest resident size. On the bundle, `serdi` writes N-Triples, `sordi` reads
into a store and writes it, and `triple_count` reads into a store; what they print goes to /dev/null, as what `check` prints does.
"""
import os, shutil, subprocess, sys, tempfile, time

HERE = os.path.dirname(os.path.abspath(__file__))
PROGRAM = os.path.join(HERE, '..', 'crates', 'lv2fx', 'out', 'lv2fx')
READER = os.path.join(HERE, '..', 'crates', 'triple_count', 'out', 'triple_count')
TRIPLES = 1 << 18
SIZE = 12_000_000
HEAD = ('@prefix lv2: <http://lv2plug.in/ns/lv2core#> .\n@prefix doap: <http://usefulinc.com/ns/doap#> .\n'
        '@prefix ex: <http://example.org/ns#> .\n')
# The triples of one entry of the bundle, and its bytes.
PER_ENTRY = 8
ENTRY_SIZE = SIZE * PER_ENTRY // TRIPLES


def entry(n):
    text = (f'<http://example.org/plugins/amplifier/{n}> a ex:Amplifier ;\n\tdoap:name "" ;\n'
            f'\tdoap:license <http://opensource.org/licenses/isc> ;\n\tlv2:minorVersion {n % 7} ;\n'
            f'\tlv2:port [\n\t\tlv2:index {n % 9} ;\n\t\tlv2:symbol "in{n}" ;\n\t\tlv2:default {n % 7}.5\n\t] .\n')
    return text.replace('""', '"' + 'A name of some length. '.ljust(ENTRY_SIZE - len(text), 'x') + '"')


def bundle():
    return HEAD + ''.join(entry(n) for n in range(TRIPLES // PER_ENTRY))


STRESS = {
    'prefixes': lambda: ''.join(f'@prefix p{n}: <http://e.org/{n}#> .\np{n}:s p{n}:p p{n}:o .\n' for n in range(100_000)),
    'list': lambda: '<urn:s> <urn:p> ( ' + ' '.join(str(n) for n in range(500_000)) + ' ) .\n',
    'literal': lambda: '<urn:s> <urn:p> """' + 'A long text\n' * 1_250_000 + '""" .\n',
    'subject': lambda: ''.join(f'<urn:s> <urn:p{n}> {n} .\n' for n in range(100_000)),
    'open': lambda: ''.join('<urn:s> <urn:p> ' + '[ <urn:q> ' * 255 + '[]' + ' ]' * 255 + ' .\n' for _ in range(400)),
    'refused': lambda: '<urn:s> <urn:p> ' + '(' * 1_000_000,
}


def timed(words):
    """Seconds, the greatest resident size in MB, and the status of a process."""
    start = time.perf_counter()
    process = subprocess.Popen(words, stdout=subprocess.DEVNULL, stderr=subprocess.DEVNULL)
    _, status, used = os.wait4(process.pid, 0)
    return time.perf_counter() - start, used.ru_maxrss / 1024, os.waitstatus_to_exitcode(status)


def best(words):
    return min(timed(words) for _ in range(3))


def line(name, who, size, words):
    seconds, memory, status = best(words)
    print(f'{name:9} {who:6} {size / 1e6:6.1f} {seconds:9.3f} {size / seconds / 1e6:9.1f} {memory:8.0f} {status:7}')


def others(path):
    """Who else reads a document, where it is there, and by which words."""
    known = [('reader', [READER, path, '1'])] if os.path.exists(READER) else []
    return known + [(who, [who, '-o', 'ntriples', path]) for who in ('serdi', 'sordi') if shutil.which(who)]


def main():
    if not os.path.exists(PROGRAM):
        sys.exit('bench: the program is not built; `./lv2fx` builds it')
    print('document  by         MB   seconds  MB a sec.   MB mem.  status')
    for name, text in {'bundle': bundle, **STRESS}.items():
        with tempfile.TemporaryDirectory() as folder:
            path = os.path.join(folder, 'manifest.ttl')
            with open(path, 'w') as file:
                file.write(text())
            size = os.path.getsize(path)
            line(name, 'lv2fx', size, [PROGRAM, 'check', folder])
            if name == 'bundle':
                for who, words in others(path):
                    line(name, who, size, words)


main()
