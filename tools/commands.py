"""The commands of ./job."""
import json
import os
import re
import sys

import asking
import draw_memory
import figures
import job_files
import job_listing
import proving
import sources
from asking import ANNOTATED, STANDARD, Sizes
from building import say
from job_records import Fault, Place
from sources import PROGRAMS, ROOT

FORM, TYPING, RULES, UNREACHED = 2, 3, 8, 17
CAUSES = {
    1: 'the length is no multiple of 16 or does not fit the header, or the header is wrong',
    2: 'a reference, a kind or an unused word is wrong; a call, print, if or try in a condition, a test outside one',
    3: 'a number out of range, a wrong type, count or order, or a region of a type of constants only',
    4: 'a variable read before it has a value, or given one twice; an out variable without one; an in or out variable on the entry',
    5: 'regions that do not fit at an assign, a construct, an arm or a call',
    6: 'the job is annotated already',
    7: 'a class that does not fit: born not output-only, dead not input-only, or at a call a dead region wanted after it, a born one wanted before it, or one shared',
    8: 'a rule of the checker is broken on some path',
    9: 'the annotated job has over 4,096 records',
    10: 'the steps are spent, {0.steps:,} are the most',
    11: 'no free cell, all {0.cells:,} lie in held regions',
    12: 'no free region, all {0.regions:,} are held',
    13: 'no free frame, {0.frames:,} calls one inside the other are the most',
    14: 'no place for a printed number, the log has {0.prints:,}',
    15: 'a sum or difference outside -2,147,483,648 to 2,147,483,647',
    17: 'procedures that no chain of calls from the entry reaches',
}
# what a half-annotated job is told; it is to name ./job strip once there is one (C-16)
TAKE_OUT = 'the annotator inserts none beside them; without them it inserts all'


class Refused(Exception):
    """A program's verdict, and what the text says about it."""

    def __init__(self, number, job, proved):
        self.number, self.places, self.proved = number, places_of(number, job), proved
        self.cause = CAUSES[number] + (f': {job_files.unreached_names(job)}' if number == UNREACHED else '')
        super().__init__('\n'.join([f'refused {number}: {self.cause}', *map(str, self.places)]))


class Stopped(Exception):
    """A run that stopped."""


def places_of(number, job):
    """Where a refusal's cause stands, as far as the file itself says it."""
    if number == FORM:
        return job_files.condition_places(job)
    if number == TYPING:
        return job_files.typing_places(job)
    if number == UNREACHED:
        return job_files.unreached_places(job)
    if number == ANNOTATED:
        return job_files.annotation_places(job, 'the annotator takes a job without any')
    if number == RULES:
        return job_files.annotation_places(job, TAKE_OUT) or [Place(job.source, 0, 'the job has no creates and removes yet: ./job annotate inserts them')]
    return []


def answering(names, sizes=STANDARD, holds=False):
    """What answers for these programs, with a note where it is not proved. `holds`: it will be asked what a run held too."""
    ask = asking.answers(names, sizes, holds)
    if not ask.proved:
        say(asking.unproved_note())
    return ask


def annotated(ask, job):
    """An annotated job, and whether it was before."""
    number, data = ask.annotate(job.data)
    if number == ANNOTATED:
        return job, True
    if number:
        raise Refused(number, job, ask.proved)
    return job.with_data(data), False


def accepted(ask, job):
    number = ask.check(job.data)
    if number:
        raise Refused(number, job, ask.proved)


# ---- files
def write(data, options, names=None):
    """A job file to OUT, with its names beside it where asked for, or to standard output."""
    out = options.get('-o')
    if options.get('--names') and not out:
        raise Fault('--names writes OUT.names beside OUT: name it with -o OUT')
    if not out:
        if sys.stdout.isatty():
            raise Fault('a job file is no text: send it to a file, with -o OUT or > OUT')
        sys.stdout.buffer.write(data)
        return
    if options.get('--names') and not names:
        raise Fault('--names: the job comes of no text, and has no names')
    save(out, data)
    if options.get('--names'):
        save(out + '.names', job_files.names_text(names, data).encode())


def save(path, data):
    try:
        with open(path, 'wb') as out:
            out.write(data)
    except OSError as error:
        raise Fault(f'{path}: {error.strerror}')


def annotate(path, options):
    job = job_files.open_job(path)
    ask = answering(['annotator'])
    made, before = annotated(ask, job)
    if before:
        raise Refused(ANNOTATED, job, ask.proved)
    write(made.data, options, job.names)


def assemble(path, options):
    job = job_files.open_text(path, job_files.read(path))
    write(job.data, options, job.names)


def list_job(path, options):
    print(job_files.open_job(path).listing(), end='')


def show(path, options):
    job = job_files.open_job(path)
    print(annotated(answering(['annotator']), job)[0].listing(), end='')


def check(path, options):
    job = job_files.open_job(path)
    ask = answering(['checker'])
    accepted(ask, job)
    if options.get('--json'):
        print_json(job=path, proved=ask.proved, ending='accepted', number=0)
    else:
        print('accepted')


# ---- runs
def sizes_of(options):
    """The unit's memory and steps, as the options have them."""
    given = {}
    for name, most in zip(Sizes._fields, asking.MOST):
        word = options.get('--' + name)
        if word is not None:
            if not re.fullmatch('[0-9]{1,19}', word) or int(word) > most:
                raise Fault(f'--{name} takes a whole number from 0 to {most:,}, not "{word[:24]}"')
            given[name] = int(word)
    return STANDARD._replace(**given)


def run(path, options):
    sizes, wants_json = sizes_of(options), options.get('--json')
    job = job_files.open_job(path)
    holds = bool(options.get('--memory') or wants_json)
    ask = answering(['annotator', 'checker', 'runner'], sizes, holds)
    tell = (lambda text: None) if wants_json else say
    made, before = annotated(ask, job)
    tell('the job is annotated already' if before else f'annotated: {len(made.data) // 16} records')
    accepted(ask, made)
    tell('checked: accepted')
    ran = ask.run(made.data, sizes)
    if ran.number in asking.REFUSALS:
        raise Fault(f'the runner refused with {ran.number} what the checker accepted: the two were not built from the same sources')
    if not wants_json:
        for number in ran.log:
            print(number)
        sys.stdout.flush()
    held = Held(ask, made, ran, sizes) if holds else None
    if options.get('--memory'):
        tell('\n'.join(held.said() + [f'drawn in {held.draw()}']))
    cause = CAUSES[ran.number].format(sizes) if ran.number else ''
    if wants_json:
        print_json(job=path, proved=ask.proved and held.proved, records=len(made.data) // 16, annotated_before=before, number=ran.number,
                   ending='stopped' if ran.number else 'finished', cause=cause, steps=ran.steps, log=ran.log, limits=sizes._asdict(), most=held.fields())
    if ran.number:
        raise Stopped(f'stopped {ran.number} after {steps(ran.steps)}: {cause}')
    tell(f'finished after {steps(ran.steps)}')


def steps(count):
    return f'{count} step' + 's' * (count != 1)


class Held:
    """What a run held: the most of each sort, the worst step, and the drawing."""

    def __init__(self, ask, job, ran, sizes):
        profile = asking.profiler(sizes, ask)
        ending = f'stopped {ran.number} {ran.steps}' if ran.number else f'finished {ran.steps}'
        lines = profile.profile(job.data, sizes, ending)
        if lines[-1:] != [ending]:
            raise Fault(f'the profile ended with "{lines[-1] if lines else ""}" and the run with "{ending}": the two were not built from the same sources')
        library = asking.library(sizes, True, True) if ran.log and isinstance(ask, asking.Programs) else ask
        self.proved = profile.proved and library.proved
        if ask.proved and not self.proved:
            say('what the run held: ' + (asking.unproved_note() if sizes == STANDARD else 'by sources that are not proved, since the proved profile has one size'))
        owners = job_listing.procedures(job.data, job.source, job.names)
        self.rows = figures.placed(figures.read('profile', lines), owners, job.places())
        self.job, self.ran, self.sizes = job, ran, sizes
        self.counts = {0: 0, ran.steps: len(ran.log)}
        self.worst = figures.worst(self.rows, len(ran.log), lambda step: self.printed_at(library, step))

    def printed_at(self, library, step):
        """How many numbers are printed after so many steps."""
        if step not in self.counts:
            self.counts[step] = library.printed_at(self.job.data, self.sizes, step) if self.ran.log else 0
        return self.counts[step]

    def said(self):
        return figures.sayings(self.rows, self.worst, self.sizes, len(self.ran.log))

    def draw(self):
        name = 'standard input' if self.job.path == '-' else os.path.basename(self.job.path)
        stopped = f'stopped {self.ran.number} after {steps(self.ran.steps)}: {CAUSES[self.ran.number].format(self.sizes)}' if self.ran.number else ''
        picture = os.path.splitext(name.replace(' ', '-'))[0] + '.memory.svg'
        save(picture, draw_memory.Drawing(self.rows, name, self.sizes, stopped, self.worst).svg().encode())
        return picture

    def fields(self):
        """For JSON."""
        most = {}
        for name, peak, sort, each in zip(figures.SORTS, figures.peaks(self.rows), (1, 2, 3), asking.BYTES):
            most[name] = {'count': peak[sort], 'bytes': peak[sort] * each, 'step': peak.step, 'where': peak.where}
        most['prints'] = {'count': len(self.ran.log), 'bytes': asking.BYTES[3] * len(self.ran.log)}
        most['together'] = self.worst._asdict()
        return most


def print_json(**fields):
    print(json.dumps(fields, indent=1))


# ---- what is built
def prove(path, options):
    proving.prove()
    print('\n'.join(proving.made()))
    say('proved: the programs and the library, from these sources, on this machine')


def version():
    """The release, the kit, and what each command would be answered by."""
    found = re.search(rb'GUMRETA_VERSION_STRING "([^"]*)"', sources.read(os.path.join(ROOT, 'c', 'gumreta.h')))
    lines = ['Gumreta' + (' ' + found[1].decode() if found else ''), 'kit: ' + (sources.kit_identity().decode().strip() or 'not found, rt is not on the path')]
    for name in PROGRAMS:
        lines.append(f'{name}: ' + state(sources.program_path(name), sources.proved(name)))
    lines.append('library: ' + state(sources.ARCHIVE, sources.archive_proved()))
    if not all(sources.proved(name) for name in PROGRAMS) or not sources.archive_proved():
        lines.append(asking.unproved_note())
    return '\n'.join(lines)


def state(path, current):
    if current:
        return f'proved on this machine from these sources, SHA-256 {sources.sha256(path)}'
    return 'not known to be of these sources, not used' if os.path.exists(path) else 'not proved on this machine'
