"""The text form of a job file: reading it. docs/JOBS.md describes the form, job_listing.py writes it."""
from job_records import (ARGUMENT, ARM, ASSIGN, CALL, CLASSES, CONSTRUCT, CREATE, EDGE, FUNCTOR, IF, LITERAL, MODES, PRINT, PROCEDURE, REGION, REMOVE,
                         SUM, SWITCH, TEST, TRY, TYPE, VARIABLE, Fault, Names, Node, Place, first_of, in_order, packed)
from text_blocks import Block, Blocks
from text_words import LARGE, NAME, NUMBER, Line, Wrong, near, quoted, suggestion


class Reader:
    """A text's types and procedures. A line that is wrong is noted and left out, so that the rest is looked at too."""

    def __init__(self, source, text):
        self.source, self.faults, self.told = source, [], set()
        self.lines = []
        for line in (Line(n, t) for n, t in enumerate(text.split('\n'), 1)):
            if line.bad:
                self.wrong(line.bad)
            if line.more():
                self.lines.append(line)
        self.names = Names()
        self.types, self.procedures, self.functors = self.names.types, self.names.procedures, self.names.functors
        self.declared, self.unclear = {}, {-1}
        self.condition, self.heeded = 0, True

    def wrong(self, fault):
        self.faults.append(fault)

    def attempt(self, work, *words):
        """What a part of a line gives, or nothing where it is wrong."""
        try:
            return work(*words)
        except Wrong as fault:
            self.wrong(fault)
            return None

    def index(self, line, table, word, what):
        """The number of a name, or -1; a name that is missing is told once in a procedure."""
        if word in table:
            return table[word]
        if (word, what) not in self.told:
            self.told.add((word, what))
            line.fail(word, f'is no {what} here' + suggestion(word, table))
        return -1

    def enter(self, line, table, word, number):
        before = self.declared.get((id(table), word))
        if word in table:
            line.fail(word, 'is there already' + (f', in line {before}' if before else ''))
        self.declared[id(table), word] = line.number
        table[word] = number

    # -- two passes: the names first, since types and procedures may name later ones
    def read(self):
        types, procedures = [], []
        for lines in self.sections():
            head, tables = lines[0], {'type': self.types, 'procedure': self.procedures}
            table = tables[head.peek()]
            if NAME.match(head.peek(1)):
                self.attempt(self.enter, head, table, head.peek(1), len(table))
            (types if head.peek() == 'type' else procedures).append(lines)
        types = [self.attempt(self.type, lines) for lines in types]
        procedures = [self.procedure(lines) for lines in procedures]
        if self.faults:
            places = self.places()
            raise Fault('\n'.join(map(str, places)), places)
        if not procedures:
            raise Fault(f'{self.source}: the text has no procedure')
        try:
            order = in_order(procedures, types)
        except Fault as fault:
            raise Fault(f'{self.source}: {fault}')
        self.names.source, self.names.lines = self.source, [node.line for node in order]
        return packed(order, procedures)

    def places(self):
        """Each fault once, by its line."""
        rows = dict.fromkeys((fault.line, str(fault)) for fault in sorted(self.faults, key=lambda fault: fault.line))
        return first_of([Place(self.source, line, text) for line, text in rows])

    def sections(self):
        """The lines of each type and each procedure."""
        found = []
        for line in self.lines:
            word, after = line.peek(), found and self.ended(found[-1])
            meant = near(word, ('type', 'procedure')) if (after or not found) and NAME.match(line.peek(1)) else ''
            if word in ('type', 'procedure'):
                found.append([line])
            elif meant:
                self.wrong(Wrong(line.number, word, f'stands where "type" or "procedure" is due; did you mean "{meant}"?'))
                line.words[0] = meant
                found.append([line])
            elif found:
                found[-1].append(line)
            else:
                self.wrong(Wrong(line.number, word, 'stands where "type" or "procedure" is due'))
        return found

    def ended(self, lines):
        """Whether a type or a procedure may be over: a type, or a procedure whose last line is an end at its own margin."""
        return lines[0].peek() == 'type' or lines[-1].peek() == 'end' and lines[-1].margin <= lines[0].margin

    def type(self, lines):
        line = lines[0]
        for more in lines[1:]:
            if more.peek() != '|':
                more.fail(more.peek(), 'stands where "type" or "procedure" is due')
            line.append(more)
        line.take('type')
        name, at = line.name(NAME, 'type'), line.number
        kind = self.types.get(name)
        self.unclear.add(kind)
        line.take('=')
        functors, chain = self.functors.setdefault(kind, {}), []
        while True:
            word, number = line.name(NAME, 'functor'), line.number
            shape = [self.index(line, self.types, t, 'type') for t in line.names(NAME, 'type')]
            if len(shape) > 4:
                line.fail(word, 'has more than four arguments')
            self.enter(line, functors, word, len(functors))
            chain.append(Node(FUNCTOR, len(shape), *shape, line=number))
            if not line.more():
                break
            line.take('|')
        line.end()
        self.unclear.discard(kind)
        return Node(TYPE, chain, line=at)

    # -- a procedure
    def procedure(self, lines):
        head, number = lines[0], lines[0].number
        named = head.peek(1)
        self.attempt(self.head, head)
        self.told = set()
        self.variables, self.kinds, self.regions, self.region_types = {}, [0], {}, [0]
        self.names.scopes.append((self.variables, self.regions))
        blocks = Blocks(head, named, lines[1:], self.procedures, self.wrong)
        whole = blocks.sort()
        variables, regions, late = [], [], []
        for line in blocks.declarations:
            made = self.attempt(self.declaration, line, late)
            if made:
                (regions if made[0].kind == REGION else variables).append(made)
        for edge in late:
            self.attempt(self.edge, *edge)
        for node, line, home in variables:
            node.words[2] = self.attempt(self.index, line, self.regions, home, 'region') if home else 0
        return Node(PROCEDURE, [v[0] for v in variables], [r[0] for r in regions], self.goals(whole.parts[0][1]), line=number)

    def head(self, line):
        line.take('procedure')
        line.name(NAME, 'procedure')
        line.end()

    def declaration(self, line, late):
        """A variable or a region, with its line and the name of its region; its own name counts even where the rest is wrong."""
        number, mode = line.number, line.peek()
        meant = near(mode, ('in', 'out', 'local', 'region'))
        if mode != meant:
            hint = f'; did you mean "{meant}"?' if meant else ''
            self.wrong(Wrong(number, mode, f'stands where {quoted(("in", "out", "local", "region"))} is due{hint}'))
        line.take()
        of_region = meant == 'region'
        table, kinds = (self.regions, self.region_types) if of_region else (self.variables, self.kinds)
        self.enter(line, table, line.name(LARGE, 'region' if of_region else 'variable'), len(kinds))
        kinds.append(-1)
        line.take(':')
        kinds[-1] = kind = self.index(line, self.types, line.name(NAME, 'type'), 'type')
        if of_region:
            return Node(REGION, kind, *self.region(line, kind, late), line=number), line, ''
        return Node(VARIABLE, MODES.index(meant or 'local'), kind, line=number), line, self.home(line)

    def home(self, line):
        home = ''
        if line.more():
            line.take('at')
            home = line.name(LARGE, 'region')
        line.end()
        return home

    def region(self, line, kind, late):
        state = CLASSES.index(line.take('born', 'dead')) if line.peek() in ('born', 'dead') else 0
        edges, due = [], (',',) if state else (',', 'born', 'dead')
        while line.more():
            line.take(*due)
            due = (',',)
            functor = line.name(NAME, 'functor')
            line.take('.')
            position = line.number_word(1, 65535)
            line.take('->')
            late.append((line, edges, kind, functor, position, line.name(LARGE, 'region')))
        line.end()
        return state, edges

    def edge(self, line, edges, kind, functor, position, target):
        edges.append(Node(EDGE, self.functor(line, kind, functor), position, self.index(line, self.regions, target, 'region'), line=line.number))

    def functor(self, line, kind, word):
        if kind in self.unclear:
            return -1
        table = self.functors.get(kind, {})
        if word not in table:
            has = f', whose functors are {", ".join(table)}' if table else ', which has no functors'
            line.fail(word, f'is no functor of type {self.names.type(kind)}{has}' + suggestion(word, table))
        return table[word]

    def value(self, line):
        return self.index(line, self.variables, line.name(LARGE, 'variable'), 'variable')

    def kind(self, x):
        """The type of a variable, or -1 where one of the two is not known."""
        return self.kinds[x] if x > 0 else -1

    # -- goals
    def goals(self, items):
        made = [self.block(item) if isinstance(item, Block) else self.attempt(self.goal, item) for item in items]
        return [node for node in made if node]

    def stands(self, line, word):
        """Number 2's rule on conditions; what stands inside a goal that breaks it is not held to it."""
        if self.heeded and self.condition and word in ('call', 'print', 'if', 'try'):
            line.fail(word, f'stands in the condition of the try of line {self.condition}: a condition holds no call, print, if or try')
        if self.heeded and not self.condition and word == 'test':
            line.fail(word, 'stands in no condition: tests stand between a "try" and its "then"')

    def goal(self, line):
        number, word = line.number, line.peek()
        self.stands(line, word)
        if word in ('call', 'print', 'test', 'create', 'remove'):
            line.take()
            node = getattr(self, word)(line)
        else:
            node = self.gives(line)
        line.end()
        node.line = number
        return node

    def call(self, line):
        q = self.index(line, self.procedures, line.name(NAME, 'procedure'), 'procedure')
        number, names = line.number, line.names(LARGE, 'variable')
        return Node(CALL, q, [Node(ARGUMENT, self.index(line, self.variables, n, 'variable'), line=number) for n in names])

    def print(self, line):
        return Node(PRINT, self.value(line))

    def test(self, line):
        return Node(TEST, *self.less(line))

    def create(self, line):
        return Node(CREATE, self.index(line, self.regions, line.name(LARGE, 'region'), 'region'))

    def remove(self, line):
        return Node(REMOVE, self.index(line, self.regions, line.name(LARGE, 'region'), 'region'))

    def gives(self, line):
        """X = .. : a number, a variable, a sum, a difference or a term."""
        x = self.value(line)
        line.take('=')
        word = line.peek()
        if word == '=':
            line.fail('==', 'is no word of a job: "=" gives a value, and "if Y < Z" compares')
        if NUMBER.match(word):
            value = line.number_word(-32768, 32767)
            if line.more():
                line.fail(line.peek(), 'stands behind a number: numbers are whole, and sums are of variables')
            return Node(LITERAL, x, value & 65535)
        if NAME.match(word):
            f = self.functor(line, self.kind(x), line.take())
            return Node(CONSTRUCT, x, f, *self.four(line))
        y = self.value(line)
        if not line.more():
            return Node(ASSIGN, x, y)
        sign = ('+', '-').index(line.take('+', '-'))
        return Node(SUM, x, sign, y, self.value(line))

    def four(self, line):
        names = line.names(LARGE, 'variable')
        if len(names) > 4:
            line.fail(names[4], 'is a fifth argument')
        return [self.index(line, self.variables, n, 'variable') for n in names]

    def block(self, block):
        before = self.condition, self.heeded
        try:
            self.stands(block.line, block.word)
        except Wrong as fault:
            self.wrong(fault)
            self.heeded = False
        node = {'switch': self.switch, 'if': self.branches, 'try': self.tried}[block.word](block)
        self.condition, self.heeded = before
        return node

    def switch(self, block):
        x = self.attempt(self.switched, block.line) or -1
        arms = []
        for line, items in block.parts:
            number = line.number
            shape = self.attempt(self.arm, line, self.kind(x)) or (0,)
            arms.append(Node(ARM, self.goals(items), *shape, line=number))
        return Node(SWITCH, x, arms, line=block.start)

    def switched(self, line):
        line.take('switch')
        x = self.value(line)
        if not self.kind(x):
            line.fail(self.names.called(self.variables, x, ''), 'is a number, and a switch takes a term')
        line.end()
        return x

    def arm(self, line, kind):
        line.take('arm')
        f = self.functor(line, kind, line.name(NAME, 'functor'))
        names = self.four(line)
        line.end()
        return (f, *names)

    def branches(self, block):
        values = self.attempt(self.compared, block.line) or (0, 0)
        for line, _ in block.parts[1:]:
            self.attempt(self.alone, line, 'else')
        yes, no = [self.goals(items) for _, items in block.parts] + [[]] * (2 - len(block.parts))
        return Node(IF, *values, yes, no, line=block.start)

    def tried(self, block):
        for (line, _), word in zip(block.parts, ('try', 'then', 'else')):
            if line:
                self.attempt(self.alone, line, word)
        (_, condition), *rest = block.parts
        self.heeded = self.heeded and bool(rest) and rest[0][0] is not None  # without a "then" it is not known where the condition ends
        outside, self.condition = self.condition, block.start
        goals = self.goals(condition)
        self.condition = outside
        yes, no = [self.goals(items) for _, items in rest] + [[]] * (2 - len(rest))
        return Node(TRY, goals, yes, no, line=block.start)

    def alone(self, line, word):
        """A word that has its line for itself."""
        line.take(word)
        if line.peek() in ('if', 'try'):
            line.fail(line.peek(), f'stands behind {"an" if word == "else" else "a"} {word}: it stands on a line of its own, with an "end" of its own')
        line.end()

    def compared(self, line):
        line.take('if')
        values = self.less(line)
        line.end()
        return values

    def less(self, line):
        y = self.value(line)
        line.take('<')
        return y, self.value(line)


def assemble(source, text):
    return Reader(source, text).read()


def assemble_bytes(source, data):
    """The job file of the text that stands in a file, and the text's names. A byte-order mark is no part of a text."""
    try:
        text = data.decode('utf-8-sig')
    except UnicodeDecodeError:
        text = '\0'
    if '\0' in text:
        raise Fault(f'{source}: is no text' + (': it is in UTF-16, a text is in UTF-8' if data[:2] in (b'\xff\xfe', b'\xfe\xff') else ''))
    reader = Reader(source, text)
    return reader.read(), reader.names
