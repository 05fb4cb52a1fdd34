"""Where a file that is refused with number 3, or with number 2 for its conditions, is wrong, and what is expected there. The verdict is the program's;
this says what it is about."""
from job_records import (ARGUMENT, ARM, ASSIGN, CALL, CONSTRUCT, EDGE, FUNCTOR, IF, LITERAL, MODES, PRINT, PROCEDURE, REGION, SUM, SWITCH, TEST,
                         REFERENCES, TRY, TYPE, VARIABLE, Rows)
from job_listing import GOALS

TYPES, FUNCTORS, ARITY, PROCEDURES, VARIABLES, REGIONS = 64, 32, 4, 256, 64, 64


def trimmed(words):
    """Argument words without the zeros at their end."""
    words = list(words)
    while words and not words[-1]:
        words.pop()
    return words


def counted(n, what):
    return f'{n} {what}' if n == 1 else f'{n} {what}s'


class Conditions(Rows):
    """Goes through a file whose references are right, and notes each goal that breaks number 2's rule on conditions."""

    BARRED = {CALL: 'a call', PRINT: 'a print', IF: 'an if', TRY: 'a try'}
    RULE = 'a condition holds no call, print, if or try'

    def places(self):
        self.found = []
        for p in self.chain(0, self.w[0][1], PROCEDURE):
            self.goals(p, self.w[p][4], 0)
        return sorted(self.found)

    def goals(self, owner, first, condition):
        """`condition` is the record of the try in whose condition the goals stand, or 0."""
        for i in self.chain(owner, first, *GOALS):
            kind = self.w[i][0]
            if condition and kind in self.BARRED:
                self.found.append((i, f'{self.BARRED[kind]} stands in the condition of the try of record {condition}: {self.RULE}'))
            elif kind == TEST and not condition:
                self.found.append((i, 'a test stands in no condition'))
            elif kind == SWITCH:
                for j in self.chain(i, self.w[i][3], ARM):
                    self.goals(j, self.w[j][2], condition)
            elif kind in (IF, TRY):
                for word in REFERENCES[kind]:
                    self.goals(i, self.w[i][word], i if kind == TRY and word == 2 else 0)


class Explainer(Rows):
    """Goes through a file that passes numbers 1 and 2, and notes each record that breaks number 3."""

    def places(self):
        """Records and words about them, by record."""
        self.found = []
        types = self.chain(0, self.w[0][2], TYPE)
        procedures = self.chain(0, self.w[0][1], PROCEDURE)
        self.functors = [[]] + [self.chain(t, self.w[t][2], FUNCTOR) for t in types]
        self.types(types)
        self.limit(procedures, PROCEDURES, 'procedures')
        if not procedures:
            self.note(0, 'the job has no procedure')
        self.variables = [self.chain(p, self.w[p][2], VARIABLE) for p in procedures]
        self.regions = [self.chain(p, self.w[p][3], REGION) for p in procedures]
        for n, p in enumerate(procedures):
            self.procedure(n, p)
        return sorted(dict.fromkeys(self.found))

    def note(self, record, text):
        self.found.append((record, text))

    def limit(self, records, most, what):
        if len(records) > most:
            self.note(records[most], f'is one of {len(records)} {what}, and {most} are the most')

    # -- types
    def is_type(self, t):
        return t < len(self.functors)

    def functors_of(self, t):
        return self.functors[t] if self.is_type(t) else []

    def shape(self, f):
        """The types of a functor's arguments."""
        return self.w[f][3:3 + min(self.w[f][2], ARITY)]

    def regioned(self, t):
        return any(self.w[f][2] for f in self.functors_of(t))

    def types(self, types):
        self.limit(types, TYPES, 'types')
        for t, functors in zip(types, self.functors[1:]):
            self.limit(functors, FUNCTORS, 'functors of a type')
            if not functors:
                self.note(t, 'the type has no functor')
            for f in functors:
                if self.w[f][2] > ARITY:
                    self.note(f, f'the functor has {self.w[f][2]} arguments, and {ARITY} are the most')
                for a in self.shape(f):
                    if not self.is_type(a):
                        self.note(f, f'there is no type {a}')
                if any(self.w[f][3 + min(self.w[f][2], ARITY):7]):
                    self.note(f, 'the functor has a type behind its arguments')

    # -- what a procedure declares
    def procedure(self, n, p):
        self.n = n
        self.limit(self.variables[n], VARIABLES, 'variables of a procedure')
        self.limit(self.regions[n], REGIONS, 'regions of a procedure')
        for v in self.variables[n]:
            self.variable(v, *self.w[v][2:5])
        for r in self.regions[n]:
            self.region(r, *self.w[r][2:4])
        self.goals(p, self.w[p][4])

    def name(self, x):
        return '"' + self.called.called(self.called.of(self.n)[0], x, 'V') + '"'

    def region_name(self, r):
        return '"' + self.called.called(self.called.of(self.n)[1], r, 'R') + '"'

    def type_name(self, t):
        return 'type ' + self.called.type(t)

    def without_regions(self, t):
        return self.type_name(t) + (', a type of constants only, which has no regions' if t else ', which has no regions')

    def region_type(self, r):
        """The type of a region of this procedure, or none."""
        return self.w[self.regions[self.n][r - 1]][2] if 0 < r <= len(self.regions[self.n]) else None

    def variable(self, v, mode, t, r):
        x = self.name(self.variables[self.n].index(v) + 1)
        if mode >= len(MODES):
            self.note(v, f'there is no mode {mode}')
        if not self.is_type(t):
            self.note(v, f'there is no type {t}')
        elif not self.regioned(t):
            if r:
                self.note(v, f'{x} is of {self.without_regions(t)}: no "at {self.region_name(r)[1:-1]}" is due')
        elif not r:
            self.note(v, f'{x} is of {self.type_name(t)}, which has regions: "at" and a region of {self.type_name(t)} are due')
        elif self.region_type(r) is None:
            self.note(v, f'there is no region {r}')
        elif self.region_type(r) != t:
            self.note(v, f'{x} is of {self.type_name(t)}, and {self.region_name(r)} is a region of {self.type_name(self.region_type(r))}')

    def region(self, r, t, state):
        name = self.region_name(self.regions[self.n].index(r) + 1)
        edges = self.chain(r, self.w[r][4], EDGE)
        if state > 2:
            self.note(r, f'there is no class {state}')
        if not self.is_type(t):
            self.note(r, f'there is no type {t}')
        elif not self.regioned(t):
            self.note(r, f'{name} is a region of {self.without_regions(t)}')
        else:
            self.edges(r, name, t, edges)

    def edges(self, r, name, t, edges):
        """One for each argument whose type has regions, in order."""
        due = [(k, p, a) for k, f in enumerate(self.functors_of(t)) for p, a in enumerate(self.shape(f), 1) if self.regioned(a)]
        given = [self.w[e][2:5] for e in edges]
        edge = lambda k, p: f'"{self.called.functor(t, k)}.{p}"'
        for e, (k, p, target) in zip(edges, given):
            if (k, p) not in [d[:2] for d in due]:
                self.note(e, f'{name} has an edge {edge(k, p)}, and that is no argument whose type has regions')
                return
        for at, (k, p, a) in enumerate(due):
            if at == len(given) or given[at][:2] != (k, p):
                later = any(g[:2] == (k, p) for g in given)
                self.note(r, f'{name} ' + (f'has the edge {edge(k, p)} out of order' if later else f'lacks the edge {edge(k, p)} to a region of {self.type_name(a)}'))
                return
            if self.region_type(given[at][2]) != a:
                self.note(edges[at], f'{name} has {edge(k, p)} leading to {self.region_name(given[at][2])}, where a region of {self.type_name(a)} is due')
        for e in edges[len(due):]:
            self.note(e, f'{name} has an edge too many')

    # -- goals
    def type_of(self, x):
        return self.w[self.variables[self.n][x - 1]][3] if 0 < x <= len(self.variables[self.n]) else None

    def wants(self, record, x, t, where):
        """x is to be a variable of type t."""
        if self.type_of(x) is None:
            self.note(record, f'there is no variable {x}' if x else f'{where} lacks a variable')
        elif self.type_of(x) != t:
            self.note(record, f'{self.name(x)} is of {self.type_name(self.type_of(x))} where {where} takes {self.type_name(t)}')

    def arguments(self, record, what, types, given):
        if len(types) != len(given):
            due = f', of {", ".join(self.type_name(t) for t in types)}' if types else ''
            self.note(record, f'{what} takes {counted(len(types), "argument")}{due}, and {len(given)} {"is" if len(given) == 1 else "are"} given')
            return
        for k, (t, x) in enumerate(zip(types, given), 1):
            self.wants(record, x, t, f'argument {k} of {what}')

    def goals(self, owner, first):
        for i in self.chain(owner, first, *GOALS):
            kind, words = self.w[i][0], self.w[i][2:]
            if kind == SWITCH:
                self.switch(i, *words[:2])
            elif kind == IF:
                for x in words[:2]:
                    self.wants(i, x, 0, 'an if')
                self.goals(i, words[2])
                self.goals(i, words[3])
            elif kind == TRY:
                for part in words[:3]:
                    self.goals(i, part)
            else:
                self.step(i, kind, words)

    def step(self, i, kind, words):
        if kind == LITERAL:
            self.wants(i, words[0], 0, 'a number')
        elif kind == PRINT:
            self.wants(i, words[0], 0, 'a print')
        elif kind == TEST:
            for x in words[:2]:
                self.wants(i, x, 0, 'a test')
        elif kind == SUM:
            for x in (words[0], *words[2:4]):
                self.wants(i, x, 0, 'a sum')
            if words[1] > 1:
                self.note(i, f'there is no sum of sort {words[1]}')
        elif kind == ASSIGN:
            self.assign(i, *words[:2])
        elif kind == CONSTRUCT:
            self.construct(i, *words)
        elif kind == CALL:
            self.call(i, words[0], [self.w[j][2] for j in self.chain(i, words[1], ARGUMENT)])
        elif self.region_type(words[0]) is None:
            self.note(i, f'there is no region {words[0]}')

    def assign(self, i, x, y):
        one, other = self.type_of(x), self.type_of(y)
        if one is None or other is None:
            self.note(i, f'there is no variable {y if one is not None else x}')
        elif one != other:
            self.note(i, f'{self.name(x)} is of {self.type_name(one)} and {self.name(y)} of {self.type_name(other)}: an assign\'s two have one type')

    def construct(self, i, x, f, *words):
        t = self.type_of(x)
        if t is None:
            self.note(i, f'there is no variable {x}')
        elif f >= len(self.functors_of(t)):
            self.note(i, f'{self.type_name(t)} has no functor {f}')
        else:
            self.arguments(i, f'"{self.called.functor(t, f)}"', self.shape(self.functors_of(t)[f]), trimmed(words))

    def call(self, i, q, given):
        if q >= len(self.variables):
            self.note(i, f'there is no procedure {q}')
            return
        types = [self.w[v][3] for v in self.variables[q] if self.w[v][2]]
        self.arguments(i, f'"{self.called.procedure(q)}"', types, given)

    def switch(self, i, x, first):
        t, arms = self.type_of(x), self.chain(i, first, ARM)
        if not t:
            self.note(i, f'{self.name(x)} is a number, and a switch takes a term' if t == 0 else f'there is no variable {x}')
        else:
            self.arms(i, t, arms)
        for j in arms:
            self.goals(j, self.w[j][2])

    def arms(self, i, t, arms):
        """One arm for each functor of the type, in order."""
        functors, given = self.functors_of(t), [self.w[j][3] for j in arms]
        called = lambda k: f'"{self.called.functor(t, k)}"'
        rule = f'a switch has one for each functor of {self.type_name(t)}, in their order'
        missing = [k for k in range(len(functors)) if k not in given]
        for k in missing:
            self.note(i, f'the switch has no arm for {called(k)}: {rule}')
        for k, j in enumerate(arms):
            if given[k] != k and not missing:
                self.note(j, f'the arm for {called(given[k])} stands ' + (f'where that for {called(k)} is due' if k < len(functors) else 'behind the last') + f': {rule}')
                return
            if given[k] < len(functors):
                self.arguments(j, called(given[k]), self.shape(functors[given[k]]), trimmed(self.w[j][4:]))
