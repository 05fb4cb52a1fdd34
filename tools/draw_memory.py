"""What a run held, step by step, as a drawing."""
import html

from asking import BYTES
from figures import SORTS, in_words, peaks

COLOURS = ('#0072B2', '#D55E00', '#007A5A')
STOPPED = '#B00020'
WIDTH, PANEL, GAP, LEFT, RIGHT, TOP, BOTTOM = 960, 140, 44, 78, 92, 112, 64
COLUMNS = 1200  # longer runs are drawn by the most of each of so many parts
NEAR = 2  # a limit up to so many times the most is drawn to scale
LONGEST = 60  # letters of a name


def ticks(most, wanted):
    """Round numbers from 0 to what is most."""
    size = 1
    while most / size > wanted:
        size = {'1': 2, '2': 5, '5': 10}[str(size)[0]] * 10 ** (len(str(size)) - 1)
    return range(0, most + 1, size)


def short(text):
    return text if len(text) <= LONGEST else text[:LONGEST - 2] + '..'


class Drawing:
    """The panels of a run: rows, the job's name, the unit's limits, and the words of a run that stopped, where these are known."""

    def __init__(self, rows, name='', limits=None, stopped='', worst=None):
        self.rows, self.most = rows, peaks(rows)
        self.name, self.limits, self.stopped, self.worst = name, limits, stopped, worst
        self.first, self.last = rows[0].step, max(rows[-1].step, rows[0].step + 1)
        self.sorts = [sort for sort in range(len(SORTS)) if self.most[sort][sort + 1]]
        self.parts = []

    def put(self, text):
        self.parts.append(text)

    def text(self, x, y, words, **more):
        style = ''.join(f' {name.replace("_", "-")}="{value}"' for name, value in more.items())
        self.put(f'<text x="{x:.1f}" y="{y:.1f}"{style}>{html.escape(words)}</text>')

    def line(self, x, y, to_x, to_y, colour, dashes=''):
        style = f' stroke-dasharray="{dashes}"' if dashes else ''
        self.put(f'<line x1="{x:.1f}" y1="{y:.1f}" x2="{to_x:.1f}" y2="{to_y:.1f}" stroke="{colour}"{style}/>')

    def x(self, step):
        return LEFT + (WIDTH - LEFT - RIGHT) * (step - self.first) / (self.last - self.first)

    def shape(self, sort):
        """Steps and counts to draw: all of them, or the most of each part."""
        rows = [(r.step, r[sort + 1]) for r in self.rows]
        each = -(-len(rows) // COLUMNS)
        return [(rows[k][0], max(n for _, n in rows[k:k + each])) for k in range(0, len(rows), each)] + rows[-1:]

    def panel(self, sort, top):
        base, peak, colour = top + PANEL, self.most[sort], COLOURS[sort]
        most = peak[sort + 1]
        limit = self.limits[sort] if self.limits else 0
        to_scale = most <= limit <= NEAR * most
        highest = limit if to_scale else most
        y = lambda n: base - (PANEL - 16) * n / highest
        for n in ticks(highest, 5):
            self.line(LEFT, y(n), WIDTH - RIGHT, y(n), '#ddd')
            self.text(LEFT - 8, y(n) + 4, f'{n:,}', text_anchor='end')
            self.text(WIDTH - RIGHT + 8, y(n) + 4, f'{n * BYTES[sort]:,} B', fill='#666')
        self.curve(sort, y, base, colour)
        self.line(LEFT, top, LEFT, base, '#333')
        self.line(LEFT, base, WIDTH - RIGHT, base, '#333')
        self.put(f'<circle cx="{self.x(peak.step):.1f}" cy="{y(most):.1f}" r="4" fill="{colour}" stroke="white"/>')
        words = f'{SORTS[sort]}: {most:,} at most, {most * BYTES[sort]:,} bytes, first after step {peak.step:,}, in {peak.where}'
        self.text(LEFT, top - 8, words if len(words) < 96 else words[:94] + '..', fill=colour, font_weight='bold')
        if limit:
            at = y(limit) if to_scale else top
            self.line(LEFT, at, WIDTH - RIGHT, at, STOPPED, '6 4')
            self.text(WIDTH - 6, top - 8, f'limit {limit:,}' + ('' if to_scale else ', not to scale'), text_anchor='end', fill=STOPPED)

    def curve(self, sort, y, base, colour):
        path, before = '', None
        for step, n in self.shape(sort):
            if before is None:
                path = f'M{self.x(step):.1f} {y(n):.1f}'
            elif n != before:
                path += f'H{self.x(step):.1f}V{y(n):.1f}'
            before = n
        path += f'H{self.x(self.rows[-1].step):.1f}'
        self.put(f'<path d="{path}V{base}H{LEFT}Z" fill="{colour}" fill-opacity="0.14"/>')
        self.put(f'<path d="{path}" fill="none" stroke="{colour}" stroke-width="1.5"/>')

    def marks(self, top):
        """Where all together is most, and where the run stopped."""
        if self.worst:
            x = self.x(self.worst.step)
            self.line(x, top, x, top + PANEL, '#555', '2 3')
        if self.stopped:
            x = self.x(self.rows[-1].step)
            self.put(f'<line x1="{x:.1f}" y1="{top}" x2="{x:.1f}" y2="{top + PANEL}" stroke="{STOPPED}" stroke-width="3"/>')

    def axis(self, base):
        for n in ticks(self.last, 8):
            if n >= self.first:
                self.line(self.x(n), base, self.x(n), base + 5, '#333')
                self.text(self.x(n), base + 19, f'{n:,}', text_anchor='middle')
        self.text((LEFT + WIDTH - RIGHT) / 2, base + 40, 'steps done', text_anchor='middle')
        if self.stopped:
            self.text(self.x(self.rows[-1].step) + 4, base + 40, 'stopped here \u2191', text_anchor='end', fill=STOPPED, font_weight='bold')

    def title(self):
        steps = f'memory held in {self.rows[-1].step:,} steps'
        self.text(LEFT, 28, f'{short(self.name)}: {steps}' if self.name else steps.capitalize(), font_size=16, font_weight='bold')
        if self.worst:
            self.text(LEFT, 50, f'together {self.worst.bytes:,} bytes at most, first after step {self.worst.step:,} (dotted): {in_words(self.worst)}')
        if self.name:
            self.text(LEFT, 70, self.stopped or 'finished', fill=STOPPED if self.stopped else '#222')

    def svg(self):
        base = TOP + max(len(self.sorts), 1) * (PANEL + GAP) - GAP
        self.title()
        for k, sort in enumerate(self.sorts):
            self.panel(sort, TOP + k * (PANEL + GAP))
            self.marks(TOP + k * (PANEL + GAP))
        if not self.sorts:
            self.text(LEFT, TOP + PANEL / 2, 'nothing was held')
        self.axis(base)
        height = base + BOTTOM
        head = f'<svg xmlns="http://www.w3.org/2000/svg" viewBox="0 0 {WIDTH} {height}" width="{WIDTH}" height="{height}" font-family="sans-serif" font-size="13" fill="#222">'
        return '\n'.join([head, f'<rect width="{WIDTH}" height="{height}" fill="white"/>', *self.parts, '</svg>']) + '\n'
