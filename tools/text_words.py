"""The words of a text's lines, and what was meant by a word that is wrong."""
import difflib
import re

NAME = re.compile(r'[a-z]\w*$')
LARGE = re.compile(r'[A-Z]\w*$')
NUMBER = re.compile(r'-?[0-9]+$')
TOKEN = re.compile(r'\s*(->|[A-Za-z]\w*|-?[0-9]+|[=|(),:.<+\-])')
KEYWORDS = ('type', 'procedure', 'local', 'in', 'out', 'region', 'switch', 'arm', 'if', 'try', 'then', 'else', 'end', 'call', 'print',
            'test', 'create', 'remove')
DECLARING = ('in', 'out', 'local', 'region')
# words of other languages
SYNONYMS = {
    'input': 'in', 'output': 'out', 'var': 'local', 'variable': 'local', 'let': 'local', 'proc': 'procedure', 'function': 'procedure', 'def': 'procedure',
    'case': 'arm', 'when': 'arm', 'match': 'switch', 'endif': 'end', 'done': 'end', 'otherwise': 'else', 'new': 'create', 'free': 'remove',
    'delete': 'remove', 'write': 'print', 'integer': 'int', 'number': 'int', 'pred': 'procedure', 'data': 'type', 'attempt': 'try', 'catch': 'else',
    'except': 'else', 'assert': 'test', 'check': 'test', 'require': 'test',
}
# what stands in a line that is no word of a job, by its first characters
HINTS = (
    ('>', 'only "<" compares: swap the two'), ('!', 'only "<" compares'), ('*', 'there are "+" and "-" only'), ('//', 'a comment starts with "#"'),
    ('/', 'there are "+" and "-" only'), (';', 'a goal ends with its line'), ('"', 'there are whole numbers and terms only'),
    ("'", 'a name has letters, digits and "_" only'), ('_', 'a name starts with a letter'), ('[', 'a list is a type with functors such as nil and cons'),
    ('%', 'a comment starts with "#"'), ('{', 'a block ends with "end"'), ('}', 'a block ends with "end"'),
)


class Wrong(Exception):
    """A fault of one line: the line's number, the word, and why."""

    def __init__(self, line, word, why):
        super().__init__(f'"{word}" {why}' if word else why)
        self.line = line


def near(word, choices):
    """The choice that a wrong word was meant to be, or none."""
    choices = list(choices)
    small = {choice.lower(): choice for choice in reversed(choices)}
    if word.lower() in small:
        return small[word.lower()]
    if SYNONYMS.get(word.lower()) in choices:
        return SYNONYMS[word.lower()]
    if len(word) < 3:
        return ''
    turned = [choice for choice in choices if sorted(choice) == sorted(word.lower())]
    return (turned + difflib.get_close_matches(word, choices, 1, 0.7) + [''])[0]


def suggestion(word, choices):
    meant = near(word, choices)
    return f'; did you mean "{meant}"?' if meant and meant != word else ''


def quoted(words, last='or'):
    *most, one = [f'"{w}"' for w in words]
    return f'{", ".join(most)} {last} {one}' if most else one


def tokens(text, number):
    """The words of a line, and what is wrong in it."""
    words, at = [], 0
    text = text.split('#')[0].rstrip()
    while at < len(text):
        found = TOKEN.match(text, at)
        if not found:
            rest = text[at:].split()[0]
            hint = next((f': {hint}' for start, hint in HINTS if rest.startswith(start)), '')
            return words, Wrong(number, rest, 'is no word of a job' + hint)
        words.append(found.group(1))
        at = found.end()
    return words, None


class Line:
    """The words of a line, taken one by one; a fault names the line and the word."""

    def __init__(self, number, text):
        self.number, self.margin = number, len(text) - len(text.lstrip())
        self.words, self.bad = tokens(text, number)
        self.numbers = [number] * len(self.words)

    def append(self, other):
        """A line goes on."""
        if self.bad:
            raise self.bad
        self.words += other.words
        self.numbers += other.numbers
        self.bad = other.bad

    def fail(self, word, why):
        raise Wrong(self.numbers[0] if self.numbers else self.number, word, why)

    def more(self):
        return bool(self.words)

    def peek(self, ahead=0):
        return self.words[ahead] if len(self.words) > ahead else ''

    def take(self, *wanted):
        if not self.words:
            if self.bad:
                raise self.bad
            self.fail('', 'the line ends where ' + (quoted(wanted) if wanted else 'a word') + ' is due')
        word = self.peek()
        if wanted and word not in wanted:
            self.fail(word, 'stands where ' + quoted(wanted) + ' is due' + (suggestion(word, wanted) if word[0].isalpha() else ''))
        self.number = self.numbers.pop(0)
        return self.words.pop(0)

    def name(self, form, what):
        if form is LARGE and what == 'variable' and NUMBER.match(self.peek()):
            self.fail(self.peek(), 'is a number where a variable is due: give a variable that value first')
        if self.words and not form.match(self.peek()):
            self.fail(self.peek(), f'is no name of a {what} (' + ('a small' if form is NAME else 'a capital') + ' letter first)')
        return self.take()

    def number_word(self, low, high):
        word = self.peek()
        if word and not NUMBER.match(word):
            self.fail(word, 'is no number')
        if word and not (len(word) < 20 and low <= int(word) <= high):
            self.fail(word[:20], f'is not from {low} to {high}')
        return int(self.take())

    def names(self, form, what):
        """A list in brackets, which may be empty, or nothing."""
        found = []
        if self.peek() == '(':
            self.take('(')
            if self.peek() == ')':
                self.take()
                return found
            found.append(self.name(form, what))
            while self.take(',', ')') == ',':
                found.append(self.name(form, what))
        return found

    def end(self):
        if self.bad:
            raise self.bad
        if self.words:
            self.fail(self.words[0], 'stands behind the end of the line')
