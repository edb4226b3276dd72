"""Figures as SVG, written without any other program: axes, steps, areas, bars. The tools that plot share it."""
from html import escape

COLOURS = ('#0b61a4', '#e08214', '#1b9e77', '#b2182b', '#7b3294', '#999999', '#5e4fa2', '#66a61e', '#a6761d')
# Points above which a line is thinned out to what can be seen.
MANY = 2000


def ticks(least, most, wanted=6):
    """Round numbers between two numbers, some six of them, 1, 2 or 5 times a power of ten apart."""
    step, factors = 1, (2, 2.5, 2)
    turn = 0
    while (most - least) / step > wanted:
        step = int(step * factors[turn % 3])
        turn += 1
    first = -(-least // step) * step
    return range(int(first), int(most) + 1, step)


def short(number):
    """A number as a label of an axis: 12,000 or 3 M or 20 G."""
    for size, word in ((10 ** 9, ' G'), (10 ** 6, ' M')):
        if number >= size and number % (size // 10) == 0:
            return f'{number / size:g}{word}'
    return f'{number:,}'


class Panel:
    """One diagram within a figure, from the left and the top, so wide and high; x and y give places of values."""

    def __init__(self, figure, left, top, width, height, most_x, most_y, least_x=0):
        self.out, self.left, self.top, self.width, self.height = figure.out, left, top, width, height
        self.least_x, self.most_x, self.most_y = least_x, max(most_x, least_x + 1), max(most_y, 1)

    def x(self, value):
        return self.left + self.width * (value - self.least_x) / (self.most_x - self.least_x)

    def y(self, value):
        return self.top + self.height * (1 - value / self.most_y)

    def axes(self, title_x, title_y, labels_y=None):
        bottom, right = self.top + self.height, self.left + self.width
        for value in ticks(0, self.most_y) if labels_y is None else labels_y:
            y, label = self.y(value), short(value) if labels_y is None else labels_y[value]
            self.out.append(f'<path d="M{self.left} {y:.1f}H{right}" stroke="#ddd"/>'
                            f'<text x="{self.left - 6}" y="{y + 4:.1f}" text-anchor="end">{label}</text>')
        for value in ticks(self.least_x, self.most_x, self.width // 60):
            self.out.append(f'<text x="{self.x(value):.1f}" y="{bottom + 16}" text-anchor="middle">{short(value)}</text>')
        middle = self.left + self.width / 2
        self.out.append(f'<text x="{middle:.1f}" y="{bottom + 34}" text-anchor="middle">{escape(title_x)}</text>')
        y = self.top + self.height / 2
        self.out.append(f'<text transform="translate({self.left - 56} {y:.1f}) rotate(-90)" text-anchor="middle">{escape(title_y)}</text>')

    def steps(self, points, colour):
        """A line that stays at each value until the next one."""
        self.out.append(f'<path d="{self._stairs(points)}" fill="none" stroke="{colour}" stroke-width="1.5"/>')

    def area(self, points, colour):
        """The same, filled down to 0."""
        path = f'{self._stairs(points)}V{self.y(0):.1f}H{self.x(points[0][0]):.1f}Z'
        self.out.append(f'<path d="{path}" fill="{colour}"/>')

    def _thinned(self, points):
        """Of very many points, those that show: the least, the greatest and the last in each unit of the figure's width."""
        if len(points) <= MANY:
            return points
        columns = {}
        for point in points:
            columns.setdefault(int(self.x(point[0])), []).append(point)
        shown = []
        for column in columns.values():
            height = lambda point: point[1]
            shown += sorted({min(column, key=height), max(column, key=height), column[-1]}, key=column.index)
        return shown

    def _stairs(self, points):
        points = self._thinned(points)
        path = [f'M{self.x(points[0][0]):.1f} {self.y(points[0][1]):.1f}']
        at = path[0]
        for x, y in points[1:]:
            move = f'H{self.x(x):.1f}V{self.y(y):.1f}'
            if move != at:
                path.append(move)
                at = move
        return ''.join(path)

    def line(self, points, colour):
        """A line from point to point, with a dot at each."""
        path = ' '.join(f'{self.x(x):.1f},{self.y(y):.1f}' for x, y in points)
        self.out.append(f'<polyline points="{path}" fill="none" stroke="{colour}" stroke-width="1.5"/>')
        self.out.extend(f'<circle cx="{self.x(x):.1f}" cy="{self.y(y):.1f}" r="2.5" fill="{colour}"/>' for x, y in points)


class Figure:
    """A figure of a width and a height. The text of the file is `text()`."""

    def __init__(self, width, height, title):
        self.out = [f'<svg xmlns="http://www.w3.org/2000/svg" viewBox="0 0 {width} {height}" width="{width}" height="{height}" '
                    'font-family="sans-serif" font-size="12" fill="#333">',
                    f'<title>{escape(title)}</title>', f'<rect width="{width}" height="{height}" fill="#fff"/>']

    def panel(self, *place):
        return Panel(self, *place)

    def legend(self, left, top, names):
        for row, name in enumerate(names):
            y = top + 20 * row
            self.out.append(f'<rect x="{left}" y="{y}" width="12" height="12" fill="{COLOURS[row % len(COLOURS)]}"/>'
                            f'<text x="{left + 18}" y="{y + 10}">{escape(name)}</text>')

    def word(self, x, y, text, anchor='start'):
        self.out.append(f'<text x="{x}" y="{y}" text-anchor="{anchor}">{escape(text)}</text>')

    def bar(self, x, y, width, height, colour):
        self.out.append(f'<rect x="{x:.1f}" y="{y:.1f}" width="{width:.1f}" height="{height:.1f}" fill="{colour}"/>')

    def text(self):
        return '\n'.join(self.out) + '\n</svg>\n'
