"""Job files and texts as the commands take them, and a text's names beside a file."""
import hashlib
import json
import os

import explaining
import job_listing
import job_text
from job_records import CREATE, REMOVE, Fault, Names, Place, first_of, read


class Job:
    """A job's bytes, and the names and lines of the text that it was made of, if any."""

    def __init__(self, path, data, names=None, from_text=False):
        self.path, self.data, self.names, self.from_text = path, data, names, from_text
        self.source = 'standard input' if path == '-' else path

    def with_data(self, data):
        return Job(self.path, data, self.names, self.from_text)

    def records(self, *kinds):
        return [i for i, kind in enumerate(self.data[::16]) if kind in kinds]

    def place(self, record, text):
        """A record's line, where the job comes of a text, and what is said of it."""
        lines = self.names.line_table(self.data) if self.names else []
        line = lines[record] if record < len(lines) else 0
        return Place(self.names.source if line else self.source, line, text, record)

    def places(self):
        """What each record of a text's job is called in a drawing: its line, or the one that an inserted create or remove stands before or behind."""
        lines, found, behind = self.names.line_table(self.data) if self.names else [], {}, 0
        for record, line in enumerate(lines):
            behind = line or behind
            found[record] = f'line {line}' if line else self.inserted(record, lines, behind)
        return found

    def inserted(self, record, lines, behind):
        kind, after = int.from_bytes(self.data[16 * record:16 * record + 2], 'little'), record
        while after and not lines[after]:
            after = int.from_bytes(self.data[16 * after + 2:16 * after + 4], 'little')
        what = 'create' if kind == CREATE else 'remove'
        return f'the {what} before line {lines[after]}' if after else f'the {what} behind line {behind}'

    def listing(self):
        return job_listing.listing(self.data, self.source, self.names)


def open_job(path):
    """A job file, with the names that stand beside it, or the job that a text stands for. A job file has zero bytes, its header's second at least; a
    text in UTF-8 has none."""
    data = read(path)
    if path.endswith('.text') or data and 0 not in data or data[:2] in (b'\xff\xfe', b'\xfe\xff'):
        return open_text(path, data)
    return Job(path, data, names_beside(path, data))


def open_text(path, data):
    data, names = job_text.assemble_bytes('standard input' if path == '-' else path, data)
    return Job(path, data, names, True)


# ---- OUT.names
def names_text(names, data):
    """A text's names and lines, for the file of these bytes."""
    body = {'job': hashlib.sha256(data).hexdigest(), 'source': names.source, 'types': names.types, 'procedures': names.procedures,
            'functors': {str(kind): table for kind, table in names.functors.items()},
            'scopes': [{'variables': variables, 'regions': regions} for variables, regions in names.scopes], 'lines': names.lines}
    return json.dumps(body, indent=1) + '\n'


def names_beside(path, data):
    """The names of FILE.names, if it stands there and belongs to these bytes."""
    beside = path + '.names'
    if path == '-' or not os.path.exists(beside):
        return None
    try:
        body = json.loads(read(beside))
        if body['job'] != hashlib.sha256(data).hexdigest():
            return None
        names = Names()
        names.source, names.lines = str(body['source']), [int(n) for n in body['lines']]
        names.types, names.procedures = dict(body['types']), dict(body['procedures'])
        names.functors = {int(kind): dict(table) for kind, table in body['functors'].items()}
        names.scopes = [(dict(scope['variables']), dict(scope['regions'])) for scope in body['scopes']]
        return names
    except (ValueError, KeyError, TypeError, AttributeError):
        raise Fault(f'{beside}: no names of a job (./job annotate and ./job assemble write them, with --names)')


# ---- what a refusal is about
def typing_places(job):
    """What breaks number 3."""
    return first_of([job.place(record, text) for record, text in explaining.Explainer(job.data, job.names).places()])


def condition_places(job):
    """What breaks number 2's rule on conditions, where that alone is broken."""
    try:
        return first_of([job.place(record, text) for record, text in explaining.Conditions(job.data).places()])
    except Fault:
        return []


def unreached_places(job):
    """The procedures that number 17 is about."""
    return [job.place(record, f'no chain of calls from the entry reaches "{name}"') for name, record in job_listing.unreached_procedures(job.data, job.names)]


def unreached_names(job):
    return ', '.join(name for name, _ in job_listing.unreached_procedures(job.data, job.names))


def annotation_places(job, then):
    """Where the first create or remove of a job's own stands."""
    own = job.records(CREATE, REMOVE)
    counts = ' and '.join(f'{n} {what}' + 's' * (n != 1) for n, what in ((len(job.records(CREATE)), 'create'), (len(job.records(REMOVE)), 'remove')) if n)
    return [job.place(own[0], f'the job has {counts} of its own, here the first: {then}')] if own else []
