"""The blocks of a procedure's lines: its declarations, and its goals with what stands inside each switch, if and try."""
from text_words import DECLARING, KEYWORDS, Wrong, near, quoted

GOALS = ('switch', 'if', 'try', 'call', 'print', 'test', 'create', 'remove')
INSIDE = ('switch', 'arm', 'if', 'try', 'then', 'else', 'end')


class Block:
    """A procedure, a switch, an if or a try: its first line, and its parts, each a line (that of the arm, if, try, then or else) and what stands in it."""

    def __init__(self, word, line, named):
        self.word, self.line, self.named, self.start = word, line, named, line.number
        self.parts = [] if word == 'switch' else [(line, [])]
        self.thens = self.elses = 0


def declares(line):
    """Whether a line is a declaration, or was meant to be one."""
    return line.peek() in DECLARING or line.peek(2) == ':' and line.peek(1)[:1].isalpha()


class Blocks:
    """Sorts the lines behind a procedure's first one."""

    def __init__(self, head, named, lines, procedures, wrong):
        self.wrong, self.lines, self.procedures = wrong, lines, procedures
        self.whole = Block('procedure', head, named)
        self.stack, self.closed = [self.whole], []
        self.declarations, self.begun = [], False

    def sort(self):
        for k, line in enumerate(self.lines):
            if not self.stack:
                self.fault(line, f'stands behind the end of procedure "{self.whole.named}", which line {self.lines[k - 1].number} ends')
                break
            self.line(line, self.meaning(line))
        if self.stack:
            self.unended()
        return self.whole

    def fault(self, line, why):
        self.wrong(Wrong(line.number, line.peek(), why))

    def meaning(self, line):
        """The word that a line starts with, or that was meant."""
        word = line.peek()
        if word in KEYWORDS or line.peek(1) == '=' or not word[:1].isalpha():
            return word
        if declares(line):
            return 'local'
        if word in self.procedures:
            self.fault(line, f'is a procedure; did you mean "call {word}"?')
            return ''
        meant = (near(word, ('test',)) or 'if') if '<' in line.words else near(word, KEYWORDS)
        if not meant or meant in DECLARING:
            self.fault(line, f'is no goal: a goal is "X = ..", or starts with {quoted(GOALS)}')
            return ''
        self.fault(line, f'is no goal; did you mean "{meant}"?')
        line.words[0] = meant
        return meant

    def line(self, line, word):
        if word in DECLARING:
            if self.begun:
                self.wrong(Wrong(line.number, line.peek(), 'stands among the goals: declarations stand at the start of the procedure'))
            self.declarations.append(line)
            return
        self.begun = True
        if word in INSIDE:
            getattr(self, 'at_' + word)(line)
        elif word:
            self.put(line)

    def put(self, item):
        top = self.stack[-1]
        if top.parts:
            top.parts[-1][1].append(item)
        else:
            line = item.line if isinstance(item, Block) else item
            self.fault(line, f'stands in the switch of line {top.start} before its first "arm"')

    def open(self, word, line):
        block = Block(word, line, word)
        self.put(block)
        self.stack.append(block)

    def at_switch(self, line):
        self.open('switch', line)

    def at_if(self, line):
        self.open('if', line)

    def at_try(self, line):
        self.open('try', line)

    def at_arm(self, line):
        self.leave(line, ('if', 'try'), ('switch',))
        if self.stack[-1].word == 'switch':
            self.stack[-1].parts.append((line, []))
        else:
            self.fault(line, 'stands in no switch')

    def at_then(self, line):
        self.leave(line, ('switch', 'if'), ('try',))
        top = self.stack[-1]
        if top.word != 'try':
            self.fault(line, 'stands in no try' + (', and an if has none: its goals follow it' if top.word == 'if' else ''))
        elif top.thens or top.elses:
            self.fault(line, f'stands behind the "{"else" if top.elses else "then"}" of the try of line {top.start}')
        else:
            top.thens = 1
            top.parts.append((line, []))

    def at_else(self, line):
        self.leave(line, ('switch',), ('if', 'try'))
        top = self.stack[-1]
        if top.word not in ('if', 'try'):
            self.fault(line, 'stands in no if and in no try')
        elif top.elses:
            self.fault(line, f'is a second one: the {top.word} of line {top.start} has an "else" already')
        else:
            self.lacks_then(top)
            top.elses = 1
            top.parts.append((line, []))

    def lacks_then(self, block):
        """A try whose "then" is missing has an empty then part."""
        if block.word == 'try' and not block.thens:
            self.wrong(Wrong(block.start, 'try', 'starts here and has no "then" behind its condition'))
            block.thens = 1
            block.parts.append((None, []))

    def leave(self, line, inner, outer):
        """A word of an outer block inside an inner one, which has no end then."""
        top = self.stack[-1]
        if top.word in inner and any(block.word in outer for block in self.stack):
            self.fault(line, f'stands inside the {top.word} of line {top.start}, which has no "end" yet')
            while self.stack[-1].word in inner:
                self.stack.pop()

    def at_end(self, line):
        line.take()
        try:
            line.end()
        except Wrong as wrong:
            self.wrong(wrong)
        block = self.stack.pop()
        self.lacks_then(block)
        self.closed.append((block, line))

    def unended(self):
        """Whose end is missing: the first that a line further left ends, else the procedure's."""
        for block, line in self.closed:
            if line.margin < block.line.margin:
                self.wrong(Wrong(block.start, block.word, f'starts here and has no "end" of its own: that of line {line.number} stands further left'))
                return
        why = 'starts here and has no "end"; every switch, if and try needs one of its own too'
        self.wrong(Wrong(self.whole.start, self.whole.named, why))
