"""./job prove: proves the programs and the library, and says what was made."""
import os
import re
import subprocess

import sources
from building import say
from job_records import Fault
from sources import ARCHIVE, LIBRARY, PROGRAMS, ROOT, archive_proved, crate_path, crate_proved, keep, program_path, proved, reached, sha256, stamp

MINUTES = 'all take an hour or so from nothing'


def to_prove(names):
    """The crates of the repository that these reach, and those of them that are not proved as they are."""
    crates = reached(*names)
    return crates, [name for name in crates if not crate_proved(name)]


def told(crates, done):
    """Says which crates are proved that were not, and how many that makes."""
    for name in crates:
        if name not in done and crate_proved(name):
            done.append(name)
            say(f'  {len(done)} of {len(crates)}: {name} proved')


def rt(verb, name, crates, done):
    """Runs rt in a crate's folder, and says each crate that it has proved."""
    try:
        work = subprocess.Popen(['rt', verb], cwd=crate_path(name), stdin=subprocess.DEVNULL, stdout=subprocess.PIPE, stderr=subprocess.STDOUT, text=True,
                                errors='replace')
    except FileNotFoundError:
        raise Fault('the Rattle kit is missing: rt is not on the path')
    lines = []
    for line in work.stdout:
        if line.startswith('logic=') or re.match(r'rt: (chose|running) ', line):
            told(crates, done)
        lines.append(line)
    if work.wait():
        why = [line for line in lines if re.search('not proved|no proof|did not build|error', line)] or lines[-5:]
        raise Fault(f'rt {verb} in crates/{name}: not proved\n' + ''.join(why)[:2000].rstrip())


def prove(programs=PROGRAMS, library=True):
    """Proves what is not proved yet, and notes from which sources."""
    names = [*([LIBRARY] if library else []), *programs]
    crates, left = to_prove(names)
    before = {name: stamp(name) for name in names}
    done = [name for name in crates if name not in left]
    if left:
        say(f'proving {len(left)} of {len(crates)} crates; {MINUTES}')
    if library and not archive_proved():
        rt('lib', LIBRARY, crates, done)
    for name in programs:
        if not proved(name):
            rt('run', name, crates, done)
    note(before)
    told(crates, done)


def note(before):
    """What was made is of the sources as they were, if they are still the same."""
    sources.forget()
    for name, called in before.items():
        path = ARCHIVE if name == LIBRARY else program_path(name)
        if not os.path.exists(path):
            raise Fault(f'{os.path.relpath(path, ROOT)} was not made: rt check in crates/{name} says why')
        if stamp(name) != called:
            raise Fault('the sources changed while they were proved: ./job prove proves them as they are now')
        keep(path, called)


def made():
    """The SHA-256 of each proved build."""
    for path in [program_path(name) for name in PROGRAMS] + [ARCHIVE]:
        yield f'{sha256(path)}  {os.path.relpath(path, ROOT)}'
