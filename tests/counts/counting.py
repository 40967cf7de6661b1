"""Counts the instructions of the workloads, of the rows of `bench/instructions` and of the programs by callgrind.

Only what the library, the workloads and the programs execute is counted: a row from the entry of its function for C to its
return, a workload without the making of its texts, a program from its start to its end. The C library selects its functions by the processor, so each call of one of
these counts as much on any machine. Programs run without an environment, by a relative path in a folder of their own.
"""
import os
import pathlib
import re
import shutil
import subprocess
import sys
import tempfile
from concurrent.futures import ThreadPoolExecutor

ROOT = pathlib.Path(__file__).resolve().parent.parent.parent
TABLE = ROOT / 'tests' / 'counts' / 'table.tsv'
CPUS = 'x86-64-v2', 'x86-64-v3'
# What stands for the kind of text in the rows of workloads.
WORKLOAD = 'workload'
# What stands for a count that there isn't, since the programs have one build.
NONE = '-'
# What a call of another library counts as: about the instructions of a short copy.
CALL = 20
# How many rounds of each workload are counted: each takes a few seconds.
ROUNDS = {'decode': 28, 'encode': 56, 'check': 20, 'repair': 32, 'short': 160, 'legacy': 160, 'everyday': 3}
# About how long the texts of a row are, in bytes: those of up to 4 KiB are several, with 4 KiB together.
SIZES = '64', '150', '600', '1024', '65536'
# The programs, which `make` builds for one kind of processors, and what each is run with.
PROGRAMS = {'utf8_check': ('', '--count', '--quiet', '--column=byte'), 'utf8_repair': ('',)}
PROGRAMS_CPU = CPUS[0]
PROGRAM_SIZE = 200_000
HEADER = ROOT / 'c' / 'include' / 'encoding_text.h'
# The functions of the library that some row calls.
called = set()
JOBS = 2

sys.path.insert(0, str(ROOT / 'bench'))
from workloads import built


def callgrind(folder, program, words, *options, source=subprocess.DEVNULL, most=0):
    """Runs the program of a folder under callgrind, which ends with a status up to `most`. Returns the files that it left."""
    command = [shutil.which('valgrind'), '-q', '--tool=callgrind', '--compress-strings=no', '--compress-pos=no',
               f'--callgrind-out-file={folder}/out', *options, f'./{program}', *words]
    ran = subprocess.run(command, cwd=folder, env={}, stdin=source, capture_output=True, text=True, errors='replace')
    if not 0 <= ran.returncode <= most:
        raise OSError(f'{" ".join(command)}: status {ran.returncode}: {ran.stderr[-500:]}')
    dumps = [path for path in pathlib.Path(folder).glob('out*') if path.stat().st_size]
    return sorted(dumps, key=lambda path: int(path.suffix[1:] or 0))


def instructions(dump, program):
    """Returns the instructions in a dump that are the program's own, and CALL for each call of its shared libraries."""
    total, is_own, leaves, skips = 0, False, False, False
    for line in dump.splitlines():
        if line.startswith('ob='):
            is_own = os.path.basename(line[3:]) == program
        elif line.startswith('cob='):
            leaves = os.path.basename(line[4:]) != program
        elif line.startswith('calls='):
            total += CALL * int(line[6:].split()[0]) if is_own and leaves else 0
            leaves, skips = False, True
        elif re.match(r'\d', line):
            # the line after calls= has what is counted in the function that is called
            total += 0 if skips or not is_own else int(line.split()[1])
            skips = False
    return total


def count_workload(cpu, name):
    """Returns the counts of a workload. The texts, which are made without a round too, aren't counted."""
    counts = []
    for rounds in (0, ROUNDS[name]):
        with tempfile.TemporaryDirectory() as folder:
            shutil.copy(ROOT / 'build' / cpu / 'encoding_workloads', folder)
            dump, = callgrind(folder, 'encoding_workloads', [name, '1', str(rounds)])
            counts.append(instructions(dump.read_text(errors='replace'), 'encoding_workloads'))
    return {(name, WORKLOAD): counts[1] - counts[0]}


def count_rows(cpu, size):
    """Returns the counts of all rows: of each call of the library for C on each kind of text."""
    counts = {}
    with tempfile.TemporaryDirectory() as folder:
        compile_rows(cpu, folder)
        options = ['--instr-atstart=no', '--toggle-collect=encoding_text_*']
        for path in callgrind(folder, 'bench', ['count', size], *options):
            dump = path.read_text(errors='replace')
            label = re.search(r'Client Request: (.*)', dump)
            if label:
                row, kind, _, _ = label[1].split('|')
                counts[row, f'{kind}, {size} bytes'] = instructions(dump, 'bench')
                called.update(re.findall(r'^fn=(encoding_text_\w+)$', dump, re.M))
    return counts


def texts_of_programs():
    """Returns the bytes that the programs read: lines of ASCII, of other characters, and with malformed sequences."""
    lines = {'ASCII': b'It was the best of times, it was the worst of times\n', 'CJK': '\u4f60\u597d, \u4e16\u754c\n'.encode() * 3,
             'damaged': b'na\xc3\xafve \xe2\x98 text, and then some more of it \xff\n'}
    return {name: (line * PROGRAM_SIZE)[:PROGRAM_SIZE // len(line) * len(line)] for name, line in lines.items()}


def count_program(cpu, name):
    """Returns the counts of a program, with each of its options and on each text."""
    counts = {}
    for option in PROGRAMS[name]:
        for kind, text in texts_of_programs().items():
            with tempfile.TemporaryDirectory() as folder:
                shutil.copy(ROOT / 'build' / cpu / name, folder)
                path = pathlib.Path(folder, 'text')
                path.write_bytes(text)
                with path.open('rb') as source:
                    dump, = callgrind(folder, name, option.split(), source=source, most=1)
                counts[f'{name} {option}'.strip(), f'{kind}, {len(text)} bytes'] = instructions(dump.read_text(errors='replace'), name)
    return counts


def uncalled():
    """Returns the functions of the header that no row calls."""
    text = re.sub(r'/\*.*?\*/', '', HEADER.read_text(), flags=re.S)
    return sorted(set(re.findall(r'\b(encoding_text_\w+)\(', text)) - called)


def compile_rows(cpu, folder):
    """Compiles the benchmark without peers, and links the library for these processors."""
    options = ['--edition', '2021', '-O', '-C', 'codegen-units=1', '--out-dir', folder]
    environment = os.environ | {'CPU': cpu, 'CARGO_MANIFEST_DIR': str(ROOT / 'bench')}
    for words in (['--crate-name', 'bench', '--crate-type', 'rlib', ROOT / 'bench' / 'src' / 'lib.rs'],
                  ['--crate-name', 'bench', '--extern', f'bench={folder}/libbench.rlib', '-L',
                   f'native={ROOT}/build/{cpu}', '-l', 'static=encoding_text', ROOT / 'bench' / 'src' / 'main.rs']):
        subprocess.run(['rustc', *options, *words], env=environment, check=True)


def tasks(cpus):
    """Yields what is counted, the longest first, each with its processors and its name."""
    if shutil.which('rustc'):
        yield from ((count_rows, [cpu, size]) for size in reversed(SIZES) for cpu in cpus)
    yield from ((count_program, [PROGRAMS_CPU, name]) for name in PROGRAMS)
    yield from ((count_workload, [cpu, name]) for name in ROUNDS for cpu in cpus)


def counted(cpus):
    """Returns all counts for these processors, by row, text and processors."""
    for cpu in cpus:
        if not (ROOT / 'build' / cpu / 'libencoding_text.a').is_file():
            raise OSError(f'build/{cpu}/libencoding_text.a is missing, which make builds')
        built(ROOT, 'encoding_workloads', cpu)
    counts = {}
    with ThreadPoolExecutor(JOBS) as pool:
        for (_, words), result in [(task, pool.submit(task[0], *task[1])) for task in tasks(cpus)]:
            counts |= {(*key, words[0]): count for key, count in result.result().items()}
    return counts


def has_avx2():
    """Returns whether the processor runs the build for x86-64-v3."""
    return re.search(r'^flags\s*:.*\bavx2\b', pathlib.Path('/proc/cpuinfo').read_text(), re.M) is not None


def stored():
    """Returns the commit that the table was written at, and its counts by row, text and processors."""
    head, names, *lines = TABLE.read_text().splitlines()
    commit = re.fullmatch(r'# commit ([0-9a-f]{40})', head)
    cpus = names.split('\t')[2:]
    if not commit or sorted(cpus) != sorted(CPUS) or not lines:
        raise ValueError(f'{TABLE} is no table of counts')
    counts = {}
    for line in lines:
        row, text, *numbers = line.split('\t')
        counts |= {(row, text, cpu): int(number) for cpu, number in zip(cpus, numbers, strict=True) if number != NONE}
    return commit[1], counts


def store(commit, counts):
    """Writes the table: a line for each row and text, with a count for each build, or `-` where there is no such build."""
    keys = dict.fromkeys(key[:2] for key in counts)
    lines = [f'# commit {commit}', '\t'.join(('row', 'text', *CPUS))]
    lines += ['\t'.join((*key, *(str(counts.get((*key, cpu), NONE)) for cpu in CPUS))) for key in keys]
    new = TABLE.with_suffix('.new')
    new.write_text('\n'.join(lines) + '\n')
    new.replace(TABLE)
