"""The records of a job file: their kinds, their written order, and what a text calls their numbers."""
import struct
import sys

TYPE, FUNCTOR, PROCEDURE, VARIABLE, REGION, EDGE = 2, 3, 4, 5, 6, 7
LITERAL, SUM, ASSIGN, CONSTRUCT, SWITCH, ARM, IF, CALL, ARGUMENT, PRINT = 8, 9, 10, 11, 12, 13, 14, 15, 16, 17
CREATE, REMOVE, TRY, TEST = 18, 19, 20, 21
MODES = ('local', 'in', 'out')
CLASSES = ('', 'born', 'dead')
LIMIT = 4096
sys.setrecursionlimit(max(sys.getrecursionlimit(), 8 * LIMIT))


# the words of a kind that lead to chains, in word order
REFERENCES = {1: (2,), TYPE: (2,), PROCEDURE: (2, 3, 4), REGION: (4,), SWITCH: (3,), ARM: (2,), IF: (4, 5), CALL: (3,), TRY: (2, 3, 4)}


def reference_words(row):
    """Which words of a record lead to others, in the order in which those are written: w1 last."""
    return (*REFERENCES.get(row[0], ()), 1)


class Place:
    """A line of a text, or a record of a file, and what is said of it."""

    def __init__(self, source, line, text, record=None):
        self.source, self.line, self.text, self.record = source, line, text, record

    def __str__(self):
        at = f':{self.line}' if self.line else f': record {self.record}' if self.record is not None else ''
        return f'{self.source}{at}: {self.text}'

    def fields(self):
        """For JSON."""
        return {'file': self.source, 'line': self.line or None, 'record': self.record, 'text': self.text}


class Fault(Exception):
    """What is wrong with a text or a file, with the places where it is."""

    def __init__(self, text, places=()):
        super().__init__(text)
        self.places = list(places)


def first_of(places, most=20):
    """The first of many places, and how many more there are."""
    more = len(places) - most
    return places[:most] + ([Place(places[0].source, 0, f'and {more} more')] if more > 0 else [])


def read(path):
    """The bytes of a file; - is standard input."""
    try:
        if path == '-':
            return sys.stdin.buffer.read()
        with open(path, 'rb') as source:
            return source.read()
    except OSError as error:
        raise Fault(f'{path}: {error.strerror}')
    except ValueError as error:
        raise Fault(f'{path!r}: {error}')


class Node:
    """A record: its kind, and words 2 to 7, each a number or the list of nodes of the chain that it leads to; and the line of a text that it stands for."""

    def __init__(self, kind, *words, line=0):
        self.kind, self.words, self.at, self.line = kind, list(words) + [0] * (6 - len(words)), 0, line


def in_order(procedures, types):
    """The records of a file in written order: a record, then what its words lead to, then the next of its chain. The header is the first."""
    order = []

    def place(chain):
        for node in chain:
            node.at = len(order)
            order.append(node)
            for word in node.words:
                if isinstance(word, list):
                    place(word)

    place([Node(1, types)])
    place(procedures)
    if len(order) > LIMIT:
        raise Fault(f'the job has {len(order)} records, {LIMIT} are the most')
    order[0].words[1] = len(order)
    return order


def packed(order, procedures):
    """The bytes of these records."""
    following = {0: procedures[0].at if procedures else 0}
    for chain in [procedures] + [word for node in order for word in node.words if isinstance(word, list)]:
        for node, after in zip(chain, chain[1:]):
            following[node.at] = after.at
    rows = []
    for node in order:
        words = [(w[0].at if w else 0) if isinstance(w, list) else w for w in node.words]
        rows.append(struct.pack('<8H', node.kind, following.get(node.at, 0), *words))
    return b''.join(rows)


def written(procedures, types):
    """The bytes of a file."""
    return packed(in_order(procedures, types), procedures)


class Names:
    """What a file's numbers are called, by a text's own names or t1, f0, p0, V1 and R1; and the line of the text that each record stands for."""

    def __init__(self):
        self.types, self.functors, self.procedures, self.scopes = {'int': 0}, {}, {}, []
        self.source, self.lines = '', []

    def called(self, table, number, letter):
        return next((name for name, n in table.items() if n == number), f'{letter}{number}')

    def type(self, number):
        return self.called(self.types, number, 't')

    def functor(self, kind, number):
        return self.called(self.functors.get(kind, {}), number, 'f')

    def procedure(self, number):
        return self.called(self.procedures, number, 'p')

    def of(self, procedure):
        """The tables of a procedure's variables and regions."""
        return self.scopes[procedure] if procedure < len(self.scopes) else ({}, {})

    def line_table(self, data):
        """The line of each record of the text's file, or of its annotation: there the k-th record that is no create or remove is the text's k-th."""
        if 16 * len(self.lines) == len(data):
            return list(self.lines)
        table, rest = [], iter(self.lines)
        for kind in data[::16]:
            table.append(0 if kind in (CREATE, REMOVE) else next(rest, 0))
        return table


class Rows:
    """A file's records, each eight words, and its chains; the file is no text, and its references may be wrong."""

    def __init__(self, data, names=None):
        self.called = names or Names()
        if len(data) < 16 or len(data) % 16 or len(data) > 16 * LIMIT:
            raise Fault(f'the file has {len(data)} bytes: no job file')
        self.w = [struct.unpack_from('<8H', data, at) for at in range(0, len(data), 16)]
        if self.w[0][0] != 1 or self.w[0][3] != len(self.w):
            raise Fault('record 0 is no header of this file')
        self.owned = set()

    def chain(self, owner, i, *kinds):
        """The records of a chain; references rise and none leads where another did, so that it ends."""
        found = []
        while i:
            if not owner < i < len(self.w) or self.w[i][0] not in kinds:
                raise Fault(f'record {owner} leads to record {i}, which can not stand there')
            if i in self.owned:
                raise Fault(f'record {owner} leads to record {i}, where another leads too')
            self.owned.add(i)
            found.append(i)
            owner, i = i, self.w[i][1]
        return found
