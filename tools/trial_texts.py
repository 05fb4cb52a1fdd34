"""Trials of what ./job says of texts: mistakes, and texts damaged at random."""
import glob
import os
import random
import re

import asking
import building
import explaining
import job_files
import job_listing
import job_text
import mistakes
from job_records import Fault

ROOT = os.path.dirname(os.path.dirname(os.path.abspath(__file__)))
TABLE = os.path.join(ROOT, 'docs', 'MISTAKES.md')
DAMAGED = 20000
HEAD = '''# Mistakes

What `./job run` says of {all} mistakes that are made in a job's text. Each is one change of the text at the end of the
page; the line is that of the changed text. Where a program refuses the job, its verdict comes first, and what the text
says about it behind it. {lines} of them get a line; numbers 4, 5 and 7 name none yet. `tools/try-commands` holds this
page to what is said.

| mistake | what stands there | what is said |
|---|---|---|
'''


def cell(text):
    return text.strip().replace('|', '\\|').replace('\n', '<br>')


def changed(what):
    """The lines that a mistake adds or changes."""
    old, new = next((old, new) for name, old, new, _ in mistakes.MISTAKES if name == what)
    before = [line.strip() for line in old.split('\n')]
    return '<br>'.join(f'`{line.strip()}`' for line in new.split('\n') if line.strip() not in before)


def try_mistakes(trial, folder):
    """Each is refused with status 1, names its line, and is shown in docs/MISTAKES.md."""
    rows, named = [], 0
    for what, text, line in mistakes.texts():
        path = os.path.join(folder, 'mistake.text')
        with open(path, 'w', encoding='utf-8') as out:
            out.write(text)
        trial.run(['job', 'run', path], 1, '', '')
        said = trial.said.replace(asking.unproved_note() + '\n', '').replace(building.RUNNING + '\n', '').replace(path, 'FILE')
        named += bool(re.search(r'FILE:\d+: ', said))
        trial.judge(f'FILE:{line}: ' in said if line else not re.search(r'FILE:\d+', said), f'{what}: line {line} is to be named: {said!r}')
        rows.append(f'| {what} | {changed(what)} | {cell(said)} |')
    page = HEAD.format(lines=named, all=len(rows)) + '\n'.join(rows) + '\n\n```\n' + mistakes.GOOD + '```\n'
    with open(TABLE, encoding='utf-8') as source:
        trial.judge(source.read() == page, 'docs/MISTAKES.md is not what is said: tools/try-commands --mistakes writes it anew')
    return page


def damage(text, dice):
    """A text with one to four things done to it."""
    for _ in range(dice.randint(1, 4)):
        lines = text.split('\n')
        k, at = dice.randrange(len(lines)), dice.randrange(len(text) + 1)
        word = dice.choice(re.findall(r'\w+|\S', text) or ['end'])
        way = min(dice.randrange(12), 8)
        if way == 0:
            text = text[:at] + text[at + dice.randint(1, 3):]
        elif way == 1:
            text = text[:at] + dice.choice('@;>*"()=,.:|-+<# \t\n\r\x0b\x0c\x00\ufeff\u00e9\u2028_9Aa') + text[at:]
        elif way == 2:
            text = '\n'.join(lines[:k] + lines[k + 1:])
        elif way == 3:
            text = '\n'.join(lines[:k] + [lines[k]] + lines[k:])
        elif way == 4:
            j = dice.randrange(len(lines))
            lines[k], lines[j] = lines[j], lines[k]
            text = '\n'.join(lines)
        elif way == 5:
            text = text[:at] + ' ' + word + ' ' + text[at:]
        elif way == 7:
            text = text[:at]
        elif way == 6:
            text = text.replace(word, dice.choice(('int', 'list', 'A', 'cons', 'end', 'if', '7', '')), dice.randint(1, 3))
        else:
            names = list(re.finditer(dice.choice((r'[A-Z]\w*', r'[a-z]\w*')), text))
            if names:
                found, other = dice.choice(names), dice.choice(names).group()
                text = text[:found.start()] + other + text[found.end():]
    return text


def judge_text(library, text):
    """What comes of a text: 'text' where it is wrong as a text, else the checker's number; an explanation stands exactly where the number is 3."""
    try:
        data, names = job_text.assemble_bytes('damaged.text', text.encode('utf-8', 'surrogatepass'))
    except Fault as fault:
        return 'text' if str(fault) else None
    job = job_files.Job('damaged.text', data, names, True)
    number = library.check(data)
    places = explaining.Explainer(data, names).places()
    if bool(places) != (number == 3) or number in (1, 2) or any(not job.place(record, '').line for record, _ in places if record):
        return None
    if number != 3 and job_text.assemble('listed', job_listing.listing(data, 'damaged', names)) != data:
        return None
    return number


def try_damaged(trial):
    """Damaged texts: no traceback, each wrong text has words, each number 3 a line, and no other number has one of its lines."""
    library, dice, found = asking.library(), random.Random(27), {}
    texts = [mistakes.GOOD]
    for path in sorted(glob.glob(os.path.join(ROOT, 'examples', '*.text'))):
        with open(path, encoding='utf-8') as source:
            texts.append(source.read())
    for k in range(DAMAGED):
        text = damage(dice.choice(texts), dice)
        try:
            came = judge_text(library, text)
        except Exception as error:
            came = None
            print(f'damaged text {k}: {error!r}')
        if came is None:
            trial.judge(False, f'damaged text {k}: {text!r}')
        found[came] = found.get(came, 0) + 1
    trial.judge(None not in found, f'damaged texts: {found}')
    print(f'{DAMAGED:,} damaged texts: {found.get("text", 0):,} wrong as texts, ' + ', '.join(f'{n:,} with number {number}' for number, n in sorted((k, n) for k, n in found.items() if isinstance(k, int))))


def judge_file(library, data):
    """What comes of a file: the checker's number. It is listed or is said not to be; a file that passes 1 and 2 has an explanation exactly where it is 3."""
    number = library.check(data)
    try:
        job_listing.listing(data)
    except Fault:
        if number not in (1, 2, 3):
            return None
    if number not in (1, 2) and bool(explaining.Explainer(data).places()) != (number == 3):
        return None
    return number


def try_damaged_files(trial):
    """Job files with a few words changed: no traceback, and number 3 explained where it is given and nowhere else."""
    library, dice, found, files = asking.library(), random.Random(28), {}, []
    for path in sorted(glob.glob(os.path.join(ROOT, 'examples', '*.job'))):
        with open(path, 'rb') as source:
            files.append(source.read())
    for k in range(DAMAGED):
        data = bytearray(dice.choice(files))
        for _ in range(dice.choice((1, 1, 1, 2, 3))):
            at = 2 * dice.randrange(len(data) // 2)
            data[at] = dice.choice((0, 1, 2, 3, 4, 5, data[at] ^ 1, dice.randrange(256)))
        try:
            came = judge_file(library, bytes(data))
        except Exception as error:
            came = None
            print(f'damaged file {k}: {error!r}')
        if came is None:
            trial.judge(False, f'damaged file {k}: {data.hex()}')
        found[came] = found.get(came, 0) + 1
    trial.judge(None not in found, f'damaged files: {found}')
    print(f'{DAMAGED:,} damaged files: ' + ', '.join(f'{n:,} with number {number}' for number, n in sorted((k, n) for k, n in found.items() if k is not None)))
