"""The kit, the crates, and whether what stands under crates/NAME/out/ was built from the sources as they are.

A build is called by a hash over the kit and all files of the crates that it reaches, worked out as rt does it for its own stamps (out/rlib/stamp of a
library, out/NAME.stamp of a program that rt run built). Beside what rt keeps no stamp of (the archive, what is loaded) a file NAME.built has that hash and
the build's own SHA-256. What the tools themselves make stands under out/ at the top.
"""
import functools
import hashlib
import os
import re
import shutil

from job_records import Fault

ROOT = os.path.dirname(os.path.dirname(os.path.abspath(__file__)))
OUT = os.path.join(ROOT, 'out')
PROGRAMS = ('annotator', 'checker', 'runner', 'profile')
LIBRARY = 'gumreta'
PARTS = ('src', 'specs', 'proofs')
# a line of crates.txt: the name, whether it is a static library, counts, what the crate depends on
LINE = re.compile(r'([\w-]+)( +staticlib)?((?: +\w+=[\w+]+)*) *:([\w\s,/-]*)')


def crate_path(name, *words):
    return os.path.join(ROOT, 'crates', name, *words)


def program_path(name):
    return crate_path(name, 'out', name)


ARCHIVE = crate_path(LIBRARY, 'out', f'lib{LIBRARY}.a')


def read(path):
    """The bytes of a file, or none."""
    try:
        with open(path, 'rb') as source:
            return source.read()
    except OSError:
        return b''


def sha256(path):
    return hashlib.sha256(read(path)).hexdigest()


# ---- the kit and the crates
@functools.cache
def kit():
    """The kit's folder, from the path of rt; '' where there is none."""
    rt = shutil.which('rt')
    return os.path.dirname(os.path.dirname(os.path.realpath(rt))) if rt else ''


def kit_path(*words):
    return os.path.join(kit(), *words)


@functools.cache
def of_kit(name):
    """A file that says which kit it is, remembered under out/ for where the kit itself is not at hand."""
    kept = os.path.join(OUT, name)
    text = read(kit_path(name)) if kit() else b''
    if text and os.access(OUT if os.path.isdir(OUT) else ROOT, os.W_OK) and text != read(kept):
        put(kept, text)
    return text or read(kept)


def kit_identity():
    """The kit's one line."""
    return of_kit('KIT-ID')


@functools.cache
def lines():
    """The lines of crates.txt, each as the pattern has it, by crate."""
    found = [LINE.fullmatch(line.split('#')[0].strip()) for line in read(os.path.join(ROOT, 'crates.txt')).decode().splitlines()]
    return {line[1]: line for line in found if line}


def needed(name):
    """What a crate's line says that it depends on."""
    return re.split(r'[\s,]+', lines()[name][4].strip()) if lines()[name][4].strip() else []


def reached(*names):
    """The crates of the repository that these reach, themselves among them, each once."""
    found = list(names)
    for name in found:
        if name not in lines():
            raise Fault(f'crates.txt lists no crate {name}')
        found += [d for d in needed(name) if d in lines() and d not in found]
    return list(dict.fromkeys(found))


# ---- what a build is called
def said(name):
    """What crates.txt and the files beside src/ say of a crate, as rt has it."""
    counts = lines()[name][3]
    words = {'name': name.replace('-', '_'), 'deps': [f'//crates/{d}' if d in lines() else f'@rattle//{d}' for d in needed(name)],
             **({'crate_type': 'staticlib'} if lines()[name][2] else {}), **{k: int(v) for k, v in re.findall(r'(\w+)=(\d+)', counts)},
             **dict(re.findall(r'(tests_may|backend)=(\S+)', counts))}
    if os.path.isfile(crate_path(name, 'src', 'main.rt')):
        status = read(crate_path(name, 'status')).decode(errors='replace').strip()
        if os.path.isfile(crate_path(name, 'args')):
            words['args'] = read(crate_path(name, 'args')).decode(errors='surrogateescape').splitlines()
        if re.fullmatch('[0-9]{1,3}', status):
            words['status'] = int(status)
    return words


def files_of(name):
    """A crate's files, each with what it is called in the crate, in the order in which rt goes through them."""
    for part in PARTS:
        for folder, folders, files in os.walk(crate_path(name, part)):
            folders.sort()
            for file in sorted(files):
                path = os.path.join(folder, file)
                yield path[len(crate_path(name)):], path


@functools.cache
def stamp(name):
    """The hash of a crate: its line's, the kit's, its files', and those of the crates that it depends on, as rt makes it."""
    if name not in lines():
        raise Fault(f'crates.txt lists no crate {name}')
    made = hashlib.sha256(repr((said(name), False)).encode())
    made.update(of_kit('WHAT'))
    for short, path in files_of(name):
        made.update(repr((short, read(path))).encode())
    made.update(repr([stamp(d) for d in needed(name) if d in lines()]).encode())
    return made.hexdigest()


def forget():
    """The sources may have changed."""
    for made in (stamp, lines):
        made.cache_clear()


def put(path, data):
    """Writes a file at one go, so that nobody reads half of it."""
    try:
        os.makedirs(os.path.dirname(path), exist_ok=True)
        part = f'{path}.{os.getpid()}'
        with open(part, 'wb') as out:
            out.write(data)
        os.replace(part, path)
    except OSError as error:
        raise Fault(f'{path}: {error.strerror}')


def keep(path, called):
    """Notes what the build that stands at a path is called."""
    put(path + '.built', f'{called} {sha256(path)}\n'.encode())


def is_kept(path, called):
    return os.path.isfile(path) and read(path + '.built').decode(errors='replace').split() == [called, sha256(path)]


def has_stamp(path, text):
    return read(path).decode(errors='replace') == text


def proved(name):
    """Whether a program is built, by a proof of these sources."""
    path = program_path(name)
    return os.access(path, os.X_OK) and (has_stamp(path + '.stamp', stamp(name) + sha256(path)) or is_kept(path, stamp(name)))


def archive_proved():
    return is_kept(ARCHIVE, stamp(LIBRARY))


def crate_proved(name):
    """Whether a crate is proved as it is, and what is made of it stands there."""
    if name == LIBRARY:
        return archive_proved()
    return proved(name) if name in PROGRAMS else has_stamp(crate_path(name, 'out', 'rlib', 'stamp'), stamp(name))


def stale(name):
    """Whether a program is there of which nothing says that it was built from these sources."""
    return os.path.exists(program_path(name)) and not proved(name)
