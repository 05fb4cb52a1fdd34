"""The annotator, the checker, the runner and the profile, asked as proved programs, as a proved library, or as sources that are not proved, with answers
that cannot be misread.

0 alone is success. A number that is none of a function's answers is an error of its own."""
import bisect
import collections
import ctypes
import re
import subprocess
import threading

import building
import proving
from building import say
from job_records import LIMIT, Fault
from sources import LIBRARY, PROGRAMS, archive_proved, kit, program_path, proved, stale

Sizes = collections.namedtuple('Sizes', 'cells regions frames prints steps')
Ran = collections.namedtuple('Ran', 'number steps log')
STANDARD = Sizes(1024, 1024, 100, 1024, 1000000)
MOST = Sizes(65535, 65535, 65535, 65535, 2 ** 63 - 1)
WORDS = (8, 2, 136, 1)  # of 32 bits, for a cell, a region, a frame and a printed number
BYTES = tuple(4 * words for words in WORDS)
REFUSALS = (1, 2, 3, 4, 5, 7, 8, 17)
STOPS = (10, 11, 12, 13, 14, 15)
ANNOTATED, TOO_LONG = 6, 9
STACK = 64 << 20
NOTHING = '0 0 0 0 0'  # a run that has no frame for its entry


def known(who, number, *numbers):
    """A number, if it is one of these or 0."""
    if number and number not in numbers:
        raise Fault(f'{who} answered {number}, which is none of its answers: it was not built from these sources')
    return number


def annotated_known(who, number, data):
    """The annotator's number and file: 0 comes with a file of records, a refusal with none."""
    known(who, number, 1, 2, 3, 4, 5, ANNOTATED, 7, TOO_LONG, 17)
    if not number and (len(data) % 16 or data[:2] != b'\1\0'):
        raise Fault(f'{who} wrote what is no job file')
    return number, data


class Programs:
    """The proved programs, crates/NAME/out/NAME, in the memory that they have."""

    proved = True

    def output(self, name, data):
        try:
            done = subprocess.run([program_path(name)], input=data, capture_output=True)
        except OSError as error:
            raise Fault(f'{program_path(name)}: {error.strerror}')
        if done.returncode or done.stderr:
            raise Fault(f'{name}: ' + (done.stderr.decode(errors='replace').strip() or f'ended with status {done.returncode}'))
        return done.stdout

    def refusal(self, name, out):
        """The number of a refusal; any other output is none of the program's answers."""
        found = re.fullmatch(rb'refused ([1-9][0-9]?)\n', out)
        if not found:
            raise Fault(f'{name} answered {out[:40].decode(errors="replace")!r}, which is none of its answers')
        return int(found[1])

    def annotate(self, data):
        out = self.output('annotator', data)
        number = 0 if out[:1] == b'\1' else self.refusal('annotator', out)
        return annotated_known('annotator', number, out)

    def check(self, data):
        out = self.output('checker', data)
        return 0 if out == b'accepted\n' else known('checker', self.refusal('checker', out), *REFUSALS)

    def run(self, data, sizes=STANDARD):
        out = self.output('runner', data)
        found = re.fullmatch(rb'((?:-?[0-9]+\n)*)(?:finished|stopped ([0-9]+)) ([0-9]+)\n', out)
        if not found:
            return Ran(known('runner', self.refusal('runner', out), *REFUSALS), 0, [])
        return Ran(known('runner', int(found[2] or 0), *STOPS), int(found[3]), [int(n) for n in found[1].split()])

    def profile(self, data, sizes, ending):
        """The profile's lines up to where a run in no more memory ended, and that ending."""
        lines = self.output('profile', data).decode().splitlines()
        if sizes == STANDARD:
            return lines
        steps = int(ending.split()[-1])
        if not lines or int(lines[-1].split()[-1]) < steps:
            raise Fault('profile ended before the run: the two were not built from the same sources')
        return ([line for line in lines[:-1] if int(line.split()[0]) <= steps] if sizes.frames else [NOTHING]) + [ending]


def apart(work):
    """Calls a function with a stack of its own, so that a small limit of the shell does not matter, and Ctrl-C ends the command meanwhile."""
    given = []
    before = threading.stack_size(STACK)
    thread = threading.Thread(target=lambda: given.append(work()), daemon=True)
    thread.start()
    threading.stack_size(before)
    thread.join()
    if not given:
        raise Fault('the library broke off')
    return given[0]


def lent(sizes):
    """Memory for so many of each sort, as pointer and length for each."""
    words = []
    for count, each in zip(sizes[:4], WORDS):
        words += [(ctypes.c_uint32 * max(count * each, 1))(), ctypes.c_size_t(count * each)]
    return words


class Library:
    """The functions of the proved library, loaded; in memory of any size."""

    proved = True

    def __init__(self, path):
        self.loaded = self.load(path)

    def load(self, path):
        try:
            return ctypes.CDLL(path)
        except OSError as error:
            raise Fault(f'{path} can not be loaded: {error}')

    def call(self, name, *words):
        function = getattr(self.loaded, name, None)
        if function is None:
            raise Fault(f'the library has no {name}')
        function.restype = ctypes.c_uint64
        return apart(lambda: function(*words))

    def annotate(self, data):
        out, written = (ctypes.c_uint8 * (16 * LIMIT))(), ctypes.c_size_t()
        number = self.call('gumreta_annotate', data, ctypes.c_size_t(len(data)), out, ctypes.c_size_t(len(out)), ctypes.byref(written))
        return annotated_known('gumreta_annotate', number, bytes(out[:written.value]))

    def check(self, data):
        return known('gumreta_check', self.call('gumreta_check', data, ctypes.c_size_t(len(data))), *REFUSALS)

    def run(self, data, sizes=STANDARD):
        memory, done, printed = lent(sizes), ctypes.c_size_t(), ctypes.c_size_t()
        number = self.call('gumreta_run', data, ctypes.c_size_t(len(data)), *memory, ctypes.c_size_t(sizes.steps), ctypes.byref(done), ctypes.byref(printed))
        known('gumreta_run', number, *REFUSALS, *STOPS)
        if printed.value > sizes.prints:
            raise Fault(f'gumreta_run printed {printed.value} numbers where there is place for {sizes.prints}')
        return Ran(number, done.value, [ctypes.c_int32(n).value for n in memory[6][:printed.value]])

    def printed_at(self, data, sizes, step):
        """How many numbers are printed after so many steps: a shorter run says it."""
        return len(self.run(data, sizes._replace(steps=step)).log)


class Unproved:
    """The sources, run without a proof, in memory of any size. A run of them takes some ten seconds, and says all that will be asked of a job."""

    proved = False

    def __init__(self, sizes=STANDARD, runs=False, holds=False):
        self.sizes, self.runs, self.holds, self.tried = sizes, runs, holds, []

    def told(self, data, sizes=None, runs=False, holds=False):
        """What the sources say of a file, or of the one that it is annotated to."""
        wanted = (sizes or self.sizes, runs, holds)
        for files, (given, ran, held), told in self.tried:
            if data == files[0 if sizes is None else 1] and sizes in (None, given) and ran >= runs and held >= holds:
                return told
        given, ran, held = wanted[0], runs or self.runs, holds or self.holds
        words = [count * each for count, each in zip(given[:4], WORDS)] + [given.steps]
        told = building.tried(data, words, ran, held)
        self.tried.append(((data, data if told.number else told.annotation), (given, ran, held), told))
        return told

    def annotate(self, data):
        told = self.told(data)
        return annotated_known('the annotator', told.number, told.annotation)

    def check(self, data):
        for (_, annotation), _, told in self.tried:
            if data == annotation and told.accepted is not None:
                return known('the checker', told.accepted, *REFUSALS)
        return known('the checker', self.told(data).checked, *REFUSALS)

    def run(self, data, sizes=STANDARD):
        told = self.told(data, sizes, True)
        if not told.number and told.annotation != data:
            return Ran(known('the runner', told.checked, *REFUSALS), 0, [])
        if not told.ran:
            return Ran(known('the runner', told.accepted or told.number, *REFUSALS), 0, [])
        return Ran(known('the runner', told.ran[0], *STOPS), told.ran[1], [ctypes.c_int32(n).value for n in told.numbers])

    def profile(self, data, sizes, ending):
        return (self.told(data, sizes, True, True).rows if sizes.frames else [NOTHING]) + [ending]

    def printed_at(self, data, sizes, step):
        """How many numbers are printed after so many steps: where the sources did not say it, a shorter run does."""
        told = self.told(data, sizes, True, True)
        if len(told.printed) == told.ran[2]:
            return bisect.bisect_right(told.printed, step)
        return len(self.run(data, sizes._replace(steps=step)).log)


# ---- which of them
def unproved_note():
    """What is said of every answer that comes of sources without a proof."""
    crates, left = proving.to_prove([*PROGRAMS, LIBRARY])
    return f'these sources are not proved on this machine: ./job prove proves them ({len(left)} of {len(crates)} crates are left; {proving.MINUTES})'


def library(sizes=STANDARD, runs=False, holds=False):
    """The library: from a proved archive, else the sources without a proof, else proved now."""
    if archive_proved():
        return Library(building.loadable_archive())
    if building.tries_unproved():
        return Unproved(sizes, runs, holds)
    proving.prove((), True)
    return Library(building.loadable_archive())


def answers(names, sizes=STANDARD, holds=False):
    """What answers for these programs: they themselves, proved, or the library where one is missing, is of other sources, or memory is of another size."""
    if sizes == STANDARD and all(proved(name) for name in names):
        return Programs()
    old = [name for name in names if stale(name)]
    if old:
        say(f'nothing says that {", ".join(old)} under crates/*/out was proved from these sources: not used')
    if not kit() and not archive_proved():
        raise Fault('the Rattle kit is missing: rt is not on the path')
    if sizes == STANDARD and not archive_proved() and not building.tries_unproved():
        proving.prove(names, False)
        return Programs()
    return library(sizes, 'runner' in names, holds)


def profiler(sizes, ask):
    """What says what a run held: the proved program, in whose memory a run in no more of it goes the same way until it stops; else the sources."""
    fits = all(size <= most for size, most in zip(sizes, STANDARD))
    if fits and proved('profile'):
        return Programs()
    if isinstance(ask, Unproved):
        return ask
    if building.tries_unproved():
        return Unproved(sizes, True, True)
    if not fits:
        raise Fault('what a run holds in more memory than the program profile has needs a kit that runs a program without a proof')
    proving.prove(('profile',), False)
    return Programs()
