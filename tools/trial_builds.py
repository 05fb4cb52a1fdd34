"""Trials of what ./job runs: from nothing, after an edit, with programs of other sources, and with a library whose answers are none."""
import os
import shutil
import subprocess
import sys
import time

ROOT = os.path.dirname(os.path.dirname(os.path.abspath(__file__)))
RUNS = 'running the sources, without a proof'
NOTE = 'these sources are not proved on this machine: ./job prove proves them ('
OTHER = 'nothing says that annotator, checker, runner under crates/*/out was proved from these sources: not used'
REVERSE = 'together: 18,496 bytes at most, first after step 1,857: 30 cells, 1 region, 32 frames, 30 numbers'
PROGRAMS = ('annotator', 'checker', 'runner', 'profile')
STRANGE = '''
typedef unsigned long size; typedef unsigned char byte; typedef unsigned int word;
size gumreta_check(const byte *f, size n) { return %d; }
size gumreta_annotate(const byte *f, size n, byte *o, size m, size *w) { *w = n < m ? n : m; for (size k = 0; k < *w; k++) o[k] = f[k]; return %d; }
size gumreta_run(const byte *f, size n, word *c, size cn, word *r, size rn, word *s, size sn, word *p, size pn, size steps, size *done, size *printed)
{ *done = 1; *printed = 0; return %d; }
'''


def clone(folder, with_programs):
    """A copy of the repository: its sources, and the proved programs with what says of which sources they are where asked for."""
    shutil.rmtree(folder, ignore_errors=True)
    for name in ('crates', 'tools', 'examples', 'c'):
        shutil.copytree(os.path.join(ROOT, name), os.path.join(folder, name), ignore=shutil.ignore_patterns('__pycache__', 'out'))
    for name in ('job', 'crates.txt'):
        shutil.copy2(os.path.join(ROOT, name), folder)
    for name in PROGRAMS if with_programs else ():
        os.makedirs(os.path.join(folder, 'crates', name, 'out'))
        for ending in ('', '.stamp', '.built'):
            path = os.path.join('crates', name, 'out', name + ending)
            if os.path.exists(os.path.join(ROOT, path)):
                shutil.copy2(os.path.join(ROOT, path), os.path.join(folder, path))


class Clone:
    """A copy of the repository in which ./job is tried."""

    def __init__(self, trial, folder, with_programs=False):
        self.trial, self.folder = trial, folder
        clone(folder, with_programs)

    def run(self, what, words, status, says, hushes=(), path=None):
        """`path` stands in the place of the path on which programs are looked for."""
        began = time.time()
        around = {**os.environ, 'PATH': path} if path else None
        done = subprocess.run([os.path.join(self.folder, 'job'), *words], capture_output=True, text=True, cwd=self.folder, env=around)
        took = time.time() - began
        good = done.returncode == status and all(text in done.stderr for text in says) and not any(text in done.stderr for text in hushes)
        self.trial.judge(good, f'{what}: status {done.returncode}, said {done.stderr!r}, wanted {says}, not {hushes}')
        self.trial.judge('Traceback' not in done.stderr, f'{what}: {done.stderr}')
        print(f'{what}: {took:.2f} s')
        return done.stdout

    def edit(self, name):
        with open(os.path.join(self.folder, 'crates', name, 'src', 'lib.rt'), 'a', encoding='utf-8') as out:
            out.write('// edited\n')


def try_from_nothing(trial, folder):
    here, gamma = Clone(trial, folder), ['run', 'examples/gamma.text']
    log = here.run('first log from nothing', gamma, 0, (RUNS, NOTE, 'finished after 78 steps'))
    trial.judge(log == '32\n41\n38\n118\n127\n96\n', f'from nothing: the log is {log!r}')
    here.run('memory of another size', ['run', '--cells', '5', 'examples/gamma.text'], 1, (RUNS, 'stopped 11 after 14 steps: no free cell, all 5 lie'))
    here.run('what it held', ['run', '--memory', 'examples/reverse.text'], 0, (RUNS, NOTE, REVERSE, 'finished after 1859 steps'))
    here.run('a file that is annotated', ['check', 'examples/one-cell.job'], 0, (RUNS, NOTE))
    here.run('one that is refused', ['check', 'examples/removed-early.job'], 1, (RUNS, NOTE, 'refused 8: '))
    version = here.run('the version', ['--version'], 0, ())
    trial.judge('annotator: not proved on this machine' in version and NOTE in version, f'--version: {version!r}')
    here.edit('stages')
    here.run('after an edit of a source', gamma, 0, (RUNS, NOTE, 'finished after 78 steps'))
    with open(os.path.join(folder, 'crates', 'stages', 'src', 'lib.rt'), 'a', encoding='utf-8') as out:
        out.write('fn broken( {\n')
    here.run('with a source that is none', gamma, 1, ('the sources could not be run: ',))


def try_stale(trial, folder):
    here, gamma = Clone(trial, folder, True), ['run', 'examples/gamma.text']
    here.run('proved programs', gamma, 0, ('finished after 78 steps',), (RUNS, NOTE))
    here.edit('lines')
    here.run('proved programs of other sources', gamma, 0, (OTHER, RUNS, NOTE, 'finished after 78 steps'))
    version = here.run('their version', ['--version'], 0, ())
    trial.judge(version.count('not known to be of these sources, not used') == 4, f'--version: {version!r}')


def other_kit(folder, script):
    """A kit whose rt is a script, and that runs nothing without a proof; the path to find it on."""
    home = os.path.join(folder, 'kit', 'bin')
    os.makedirs(home, exist_ok=True)
    with open(os.path.join(home, 'rt'), 'w', encoding='utf-8') as out:
        out.write('#!/bin/sh\nname=$(basename "$PWD")\nmkdir -p out\n' + script)
    os.chmod(os.path.join(home, 'rt'), 0o755)
    for name in ('KIT-ID', 'WHAT'):
        with open(os.path.join(folder, 'kit', name), 'w', encoding='utf-8') as out:
            out.write('another kit\n')
    return home + ':' + os.environ['PATH']


def try_other_kits(trial, folder):
    """A kit that runs nothing without a proof proves as ever; without a kit what was proved is used, and nothing else is."""
    here, gamma = Clone(trial, folder), ['run', 'examples/gamma.text']
    alone = os.path.join(folder, 'alone')
    os.makedirs(alone)
    os.symlink(sys.executable, os.path.join(alone, 'python3'))
    here.run('no kit and nothing proved', gamma, 1, ('the Rattle kit is missing: rt is not on the path',), ('Traceback',), alone)
    path = other_kit(folder, 'echo "src/lib.rt:3:1: error: a fact fails"\nexit 1\n')
    here.run('a kit that proves nothing', gamma, 1, ('proving ', 'rt run in crates/annotator: not proved', 'a fact fails'), (), path)
    path = other_kit(folder, f'cp {ROOT}/crates/$name/out/$name out/\n')
    here.run('a kit that runs nothing unproved', gamma, 0, ('  1 of ', ': runner proved', 'finished after 78 steps'), (RUNS, NOTE), path)
    here.run('the same once more', gamma, 0, ('finished after 78 steps',), (RUNS, NOTE, 'proving'), path)
    here.run('no kit, and programs that were proved', gamma, 0, ('finished after 78 steps',), (RUNS, NOTE, 'proving'), alone)
    here.edit('lines')
    here.run('no kit, and programs of other sources', gamma, 1, ('not used', 'the Rattle kit is missing'), ('finished',), alone)


def try_strange_programs(trial, folder):
    """Programs that answer what is no answer of theirs: an error of its own, and never success."""
    for name, words, says in (('checker', 'refused 16', '16, which is none of its answers'), ('checker', 'refused 6', '6'), ('checker', '', "'', which is none"),
                              ('checker', 'accepted, or so', "'accepted, or so"), ('annotator', 'refused 18', '18'), ('annotator', '', "''"), ('runner', '', "''"),
                              ('runner', 'finished', "'finished"), ('runner', '1\nstopped 16 3', '16'), ('runner', 'refused 16', '16')):
        here = Clone(trial, folder)
        script = f'cp {ROOT}/crates/$name/out/$name out/\n'
        script += f"[ $name != {name} ] || printf '#!/bin/sh\\ncat > /dev/null\\ncat {folder}/words\\n' > out/{name}\n"
        with open(os.path.join(folder, 'words'), 'w', encoding='utf-8') as out:
            out.write(words + '\n' * bool(words))
        log = here.run(f'{name} answers {words!r}', ['run', 'examples/gamma.text'], 1, (f'{name} answered {says}',), ('finished after',), other_kit(folder, script))
        trial.judge(not log, f'{name} answers {words!r}: {log!r}')


def loaded(folder, source, compiler):
    """Puts a library of a C source where ./job looks for what it made of the proved archive."""
    words = 'import sys; sys.path.insert(0, "tools"); import sources; print(sources.stamp(sources.LIBRARY))'
    called = subprocess.run([sys.executable, '-c', words], cwd=folder, capture_output=True, text=True, check=True).stdout.strip()
    archive, path = os.path.join(folder, 'crates', 'gumreta', 'out', 'libgumreta.a'), os.path.join(folder, 'out', 'libgumreta.so')
    for made in (archive, path):
        os.makedirs(os.path.dirname(made), exist_ok=True)
        subprocess.run([compiler, '-shared', '-fPIC', '-o', made, source], check=True)
        with open(made + '.built', 'w', encoding='utf-8') as out:
            out.write(f'{called} {sha256(made)}\n')


def try_strange(trial, folder, compiler):
    """A library that answers what is no answer: an error of its own."""
    here, source = Clone(trial, folder), os.path.join(folder, 'strange.c')
    annotated, plain = 'examples/one-cell.job', 'examples/gamma.text'
    for numbers, words, says in (((16, 6, 0), ['check', annotated], 'gumreta_check answered 16, which is none of its answers'),
                                 ((18, 6, 0), ['run', annotated], 'gumreta_check answered 18, which is none of its answers'),
                                 ((6, 6, 0), ['check', annotated], 'gumreta_check answered 6, which is none of its answers'),
                                 ((0, 16, 0), ['annotate', plain], 'gumreta_annotate answered 16, which is none of its answers'),
                                 ((0, 8, 0), ['run', plain], 'gumreta_annotate answered 8, which is none of its answers'),
                                 ((0, 6, 16), ['run', annotated], 'gumreta_run answered 16, which is none of its answers'),
                                 ((0, 6, 2 ** 32), ['run', annotated], 'gumreta_run answered 4294967296, which is none of its answers'),
                                 ((0, 6, 4), ['run', annotated], 'the runner refused with 4 what the checker accepted')):
        with open(source, 'w', encoding='utf-8') as out:
            out.write((STRANGE % numbers).replace('return 4294967296', 'return 4294967296ul'))
        loaded(folder, source, compiler)
        log = here.run(f'a library that answers {numbers}', words, 1, (says,), ('finished', RUNS))
        trial.judge(not log, f'a library that answers {numbers}: {log!r}')


def sha256(path):
    return subprocess.run(['sha256sum', path], capture_output=True, text=True).stdout.split()[0]


def try_builds(trial, folder):
    try_from_nothing(trial, os.path.join(folder, 'clone'))
    try_stale(trial, os.path.join(folder, 'clone'))
    try_other_kits(trial, os.path.join(folder, 'clone'))
    try_strange_programs(trial, os.path.join(folder, 'clone'))
    compiler = shutil.which('cc') or shutil.which('gcc') or shutil.which('clang')
    if compiler:
        try_strange(trial, os.path.join(folder, 'clone'), compiler)
    else:
        print('no C compiler: a library with strange answers is not tried')
