"""What a run held, step by step: the most of each sort, and the step at which all of it together is most."""
import collections

from asking import BYTES
from job_records import Fault

SORTS = ('cells', 'regions', 'frames')
Row = collections.namedtuple('Row', 'step cells regions frames where')
Worst = collections.namedtuple('Worst', 'step cells regions frames numbers bytes')


def read(source, lines):
    """Rows from lines "STEP CELLS REGIONS FRAMES WHERE". A last line "finished S" or "stopped N S" says how far the run went."""
    ending = lines[-1].split() if lines else []
    ended = len(ending) > 1 and ending[0] in ('finished', 'stopped') and ending[-1].isdigit()
    if ended:
        lines = lines[:-1]
    rows = [row(source, number, line.split()) for number, line in enumerate(lines, 1) if line.strip()]
    if not rows:
        raise Fault(f'{source}: no lines')
    for number, (one, other) in enumerate(zip(rows, rows[1:]), 2):
        if other.step < one.step:
            raise Fault(f'{source}:{number}: step {other.step} comes behind step {one.step}')
    return rows + [rows[-1]._replace(step=int(ending[-1]))] if ended else rows


def row(source, number, words):
    if len(words) != 5:
        raise Fault(f'{source}:{number}: {len(words)} words, where STEP CELLS REGIONS FRAMES PROCEDURE are five')
    for word in words[:4]:
        if not word.isascii() or not word.isdigit() or len(word) > 18:
            raise Fault(f'{source}:{number}: "{word[:20]}" is no count')
    return Row(*map(int, words[:4]), words[4])


def placed(rows, owners, places):
    """Rows with the procedure, and the line of the text where there is one, in the place of a goal's record."""
    called = {str(record): f'{name} ({places.get(record, f"record {record}")})' for record, name in owners.items()}
    return [r._replace(where=called.get(r.where, 'the entry' if r.where == '0' else r.where)) for r in rows]


def peaks(rows):
    """For each sort the row that first has the most."""
    return [max(rows, key=lambda r: r[sort]) for sort in (1, 2, 3)]


def held_bytes(row):
    return sum(n * each for n, each in zip(row[1:4], BYTES))


def first_with(low, high, numbers, printed_at):
    """The first from `low` to `high` at which so many numbers are printed, which is so at `high`; the log only grows."""
    while low < high:
        middle = (low + high) // 2
        low, high = (low, middle) if printed_at(middle) == numbers else (middle + 1, high)
    return low


def worst(rows, printed, printed_at):
    """The first step at which cells, regions, frames and printed numbers take most together. Between two changes the log alone grows, and it never
    shrinks: so the last step of few spans needs to be asked for, the largest spans first and of equal ones the latest."""
    sizes = [held_bytes(r) for r in rows]
    ends = [max(r.step, after.step - 1) for r, after in zip(rows, rows[1:])] + [rows[-1].step]
    best, at = -1, -1
    for k in sorted(range(len(rows)), key=lambda k: (sizes[k], k), reverse=True):
        if sizes[k] + BYTES[3] * printed <= best:
            break
        if k > at and sizes[k] + BYTES[3] * printed_at(ends[k]) > best:
            best, at = sizes[k] + BYTES[3] * printed_at(ends[k]), k
    numbers, same = printed_at(ends[at]), [k for k in range(at + 1) if sizes[k] == sizes[at]]
    k = same[first_with(0, len(same) - 1, numbers, lambda n: printed_at(ends[same[n]]))]
    return Worst(first_with(rows[k].step, ends[k], numbers, printed_at), *rows[k][1:4], numbers, best)


def sayings(rows, worst=None, limits=None, printed=None):
    """A line for each sort, and one for all together."""
    said = []
    for name, peak, sort, each in zip(SORTS, peaks(rows), (1, 2, 3), BYTES):
        of = f' of {limits[sort - 1]:,}' if limits else ''
        said.append(f'{name}: {peak[sort]:,} at most{of}, {peak[sort] * each:,} bytes, first after step {peak.step:,}, in {peak.where}')
    if printed is not None:
        said.append(f'numbers: {printed:,} printed of {limits.prints:,}, {printed * BYTES[3]:,} bytes')
    if worst:
        said.append(f'together: {worst.bytes:,} bytes at most, first after step {worst.step:,}: {in_words(worst)}')
    return said


def in_words(worst):
    counts = ((worst.cells, 'cell'), (worst.regions, 'region'), (worst.frames, 'frame'), (worst.numbers, 'number'))
    return ', '.join(f'{n:,} {what}' + 's' * (n != 1) for n, what in counts)
