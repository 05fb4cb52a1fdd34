"""A job file as text: docs/JOBS.md describes the form, job_text.py reads it."""
from job_records import (ARGUMENT, ARM, ASSIGN, CALL, CLASSES, CONSTRUCT, CREATE, EDGE, FUNCTOR, IF, LITERAL, MODES, PRINT, PROCEDURE, REGION,
                         REMOVE, SUM, SWITCH, TEST, TRY, TYPE, VARIABLE, Fault, Rows, reference_words)

DEEPEST = 20  # deeper goals are not indented further
GOALS = (LITERAL, SUM, ASSIGN, CONSTRUCT, SWITCH, IF, CALL, PRINT, CREATE, REMOVE, TRY, TEST)


class Lister(Rows):
    """A file that passes number 3, as text."""

    def __init__(self, data, names):
        super().__init__(data, names)
        self.lines, self.deep = [], 0
        self.heads, self.calls = [], []

    def put(self, text, record=None):
        self.lines.append('    ' * min(self.deep, DEEPEST) + text + (f'  # {record}' if record is not None else ''))

    def pick(self, record, names, n):
        if not 0 <= n < len(names):
            raise Fault(f'record {record} names number {n}, of which there is none')
        return names[n]

    def text(self):
        types = self.chain(0, self.w[0][2], TYPE)
        self.procedure_records = procedures = self.chain(0, self.w[0][1], PROCEDURE)
        self.type_names = [self.called.type(n) for n in range(len(types) + 1)]
        self.procedure_names = [self.called.procedure(n) for n in range(len(procedures))]
        self.functors = [[]] + [self.chain(t, self.w[t][2], FUNCTOR) for t in types]
        for n, t in enumerate(types, 1):
            shapes = []
            for k, f in enumerate(self.functors[n]):
                names = [self.pick(f, self.type_names, a) for a in self.w[f][3:3 + min(self.w[f][2], 4)]]
                shapes.append(self.called.functor(n, k) + (f'({", ".join(names)})' if names else ''))
            self.put(f'type {self.type_names[n]} = ' + ' | '.join(shapes), t)
        for n, p in enumerate(procedures):
            self.lines.append('')
            self.procedure(n, p)
        for n in reversed(unreached(self.calls)):
            self.lines.insert(self.heads[n], '# no chain of calls from the entry reaches this procedure')
        return '\n'.join(self.lines).strip('\n') + '\n'

    def procedure(self, n, p):
        self.heads.append(len(self.lines))
        self.calls.append([])
        self.put(f'procedure {self.procedure_names[n]}', p)
        self.deep = 1
        variables = self.chain(p, self.w[p][2], VARIABLE)
        regions = self.chain(p, self.w[p][3], REGION)
        self.kinds = [0] + [self.w[v][3] for v in variables]
        own_variables, own_regions = self.called.of(n)
        self.names = [''] + [self.called.called(own_variables, k, 'V') for k in range(1, len(variables) + 1)]
        self.homes = [''] + [self.called.called(own_regions, k, 'R') for k in range(1, len(regions) + 1)]
        for k, v in enumerate(variables, 1):
            mode, kind, home = self.w[v][2:5]
            at = f' at {self.pick(v, self.homes, home)}' if home else ''
            self.put(f'{self.pick(v, MODES, mode)} {self.names[k]} : {self.pick(v, self.type_names, kind)}{at}', v)
        for k, r in enumerate(regions, 1):
            kind, state = self.w[r][2:4]
            words = [f'region {self.homes[k]} : {self.pick(r, self.type_names, kind)} {self.pick(r, CLASSES, state)}'.rstrip()]
            for e in self.chain(r, self.w[r][4], EDGE):
                f, position, target = self.w[e][2:5]
                words.append(f'{self.functor(e, kind, f)}.{position} -> {self.pick(e, self.homes, target)}')
            self.put(', '.join(words), r)
        self.goals(p, self.w[p][4])
        self.deep = 0
        self.put('end')

    def functor(self, record, kind, f):
        self.pick(record, self.pick(record, self.functors, kind), f)
        return self.called.functor(kind, f)

    def value(self, record, x):
        if x == 0:
            raise Fault(f'record {record} names variable 0')
        return self.pick(record, self.names, x)

    def term(self, record, kind, f, words):
        arity = self.w[self.pick(record, self.pick(record, self.functors, kind), f)][2]
        names = [self.value(record, a) for a in words[:arity]]
        return self.called.functor(kind, f) + (f'({", ".join(names)})' if names else '')

    def goals(self, owner, first):
        for i in self.chain(owner, first, *GOALS):
            self.goal(i, *self.w[i][2:])

    def goal(self, i, a, b, c, d, e, f):
        kind = self.w[i][0]
        if kind == LITERAL:
            self.put(f'{self.value(i, a)} = {b - 65536 if b > 32767 else b}', i)
        elif kind == SUM:
            self.put(f'{self.value(i, a)} = {self.value(i, c)} {self.pick(i, "+-", b)} {self.value(i, d)}', i)
        elif kind == ASSIGN:
            self.put(f'{self.value(i, a)} = {self.value(i, b)}', i)
        elif kind == CONSTRUCT:
            self.put(f'{self.value(i, a)} = {self.term(i, self.kinds[a], b, (c, d, e, f))}', i)
        elif kind == CALL:
            names = [self.value(j, self.w[j][2]) for j in self.chain(i, b, ARGUMENT)]
            self.calls[-1].append(a)
            self.put(f'call {self.pick(i, self.procedure_names, a)}' + (f'({", ".join(names)})' if names else ''), i)
        elif kind == PRINT:
            self.put(f'print {self.value(i, a)}', i)
        elif kind in (CREATE, REMOVE):
            self.put(('create' if kind == CREATE else 'remove') + f' {self.pick(i, self.homes, a)}', i)
        elif kind == TEST:
            self.put(f'test {self.value(i, a)} < {self.value(i, b)}', i)
        elif kind == SWITCH:
            self.switch(i, a, b)
        elif kind == TRY:
            self.attempt(i, a, b, c)
        else:
            self.branches(i, a, b, c, d)

    def switch(self, i, x, first):
        self.put(f'switch {self.value(i, x)}', i)
        for j in self.chain(i, first, ARM):
            goals, f, *words = self.w[j][2:]
            self.put(f'arm {self.term(j, self.kinds[x], f, words)}', j)
            self.part(j, goals)
        self.put('end')

    def part(self, owner, first):
        self.deep += 1
        self.goals(owner, first)
        self.deep -= 1

    def branches(self, i, y, z, yes, no):
        self.put(f'if {self.value(i, y)} < {self.value(i, z)}', i)
        self.part(i, yes)
        self.otherwise(i, no)

    def attempt(self, i, condition, yes, no):
        self.put('try', i)
        self.part(i, condition)
        self.put('then')
        self.part(i, yes)
        self.otherwise(i, no)

    def otherwise(self, i, no):
        if no:
            self.put('else')
            self.part(i, no)
        self.put('end')


def unreached(calls):
    """The procedures that no chain of calls from procedure 0 reaches, by what each of them calls."""
    found = [0][:len(calls)]
    for p in found:
        found += [q for q in dict.fromkeys(calls[p]) if q not in found]
    return [p for p in range(len(calls)) if p not in found]


def unreached_procedures(data, names=None):
    """The names and the records of those of a file that passes number 3."""
    lister = Lister(data, names)
    lister.text()
    return [(lister.procedure_names[p], lister.procedure_records[p]) for p in unreached(lister.calls)]


def procedures(data, source, names=None):
    """The name of the procedure that each record of a file belongs to."""
    try:
        lister = Lister(data, names)
        owners = {}
        for n, p in enumerate(lister.chain(0, lister.w[0][1], PROCEDURE)):
            waiting = [p]
            while waiting:
                i = waiting.pop()
                if i in owners:
                    continue
                owners[i] = lister.called.procedure(n)
                waiting += [lister.w[i][k] for k in reference_words(lister.w[i]) if i < lister.w[i][k] < len(lister.w) and not (i == p and k == 1)]
        return owners
    except Fault as fault:
        raise Fault(f'{source}: {fault}')


def listing(data, source='file', names=None):
    try:
        return Lister(data, names).text()
    except Fault as fault:
        raise Fault(f'{source}: {fault}')
