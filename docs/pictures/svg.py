"""A picture with a background of its own, and the colours that all of them share."""
from html import escape

PAPER, INK, SOFT, LINE = "#ffffff", "#22262c", "#5d6673", "#c3cad4"
UNUSED, USED, CONDEMNED, GREY, MARKED, FREED = "#eef1f5", "#6f9bd6", "#e5876f", "#f2b134", "#3f9b5f", "#f8ded7"
STATE = {"free": "#ffffff", "part": "#cfe8d6", "held": "#d3e2f6", "full": "#b9c0ca", "condemned": "#f6c6ba"}
PHASE = ["#ffffff", "#fdebc2", "#fbdc94", "#c3e3cd", "#f6c6ba"]

HEAD = """<svg xmlns="http://www.w3.org/2000/svg" viewBox="0 0 {width} {height}" width="{width}" height="{height}"
 font-family="Liberation Sans, Arial, sans-serif" font-size="13" fill="{ink}">
<title>{title}</title>
<rect x=".5" y=".5" width="{inner}" height="{low}" rx="6" fill="{paper}" stroke="{line}"/>
<defs><marker id="tip" viewBox="0 0 10 10" refX="9" refY="5" markerWidth="8" markerHeight="8" orient="auto"><path d="M0 0L10 5L0 10z"/></marker></defs>"""


class Picture:
    def __init__(self, width, title, below):
        self.width, self.title, self.parts = width, title, []
        self.text(14, 28, title, 17, weight="bold")
        self.text(14, 48, below, 12, SOFT)

    def text(self, x, y, words, size=13, fill=INK, anchor="start", weight="normal"):
        look = f'font-size="{size}" fill="{fill}" text-anchor="{anchor}" font-weight="{weight}"'
        self.parts.append(f'<text x="{x:g}" y="{y:g}" {look}>{escape(str(words))}</text>')

    def lines(self, x, y, words, width, size=13, fill=INK, anchor="start", step=17):
        """Words in lines of at most so many characters; answers how many lines."""
        rows = [""]
        for word in words.split():
            if rows[-1] and len(rows[-1]) + 1 + len(word) > width:
                rows.append("")
            rows[-1] = f"{rows[-1]} {word}".strip()
        for i, row in enumerate(rows):
            self.text(x, y + i * step, row, size, fill, anchor)
        return len(rows)

    def box(self, x, y, width, height, fill, stroke=LINE, more=""):
        place = f'x="{x:g}" y="{y:g}" width="{width:g}" height="{height:g}"'
        self.parts.append(f'<rect {place} fill="{fill}" stroke="{stroke}" {more}/>')

    def arrow(self, d):
        self.parts.append(f'<path d="{d}" fill="none" stroke="{INK}" stroke-width="1.5" marker-end="url(#tip)"/>')

    def stroke(self, d, colour=LINE, dashes="none"):
        self.parts.append(f'<path d="{d}" fill="none" stroke="{colour}" stroke-dasharray="{dashes}"/>')

    def area(self, d, fill):
        self.parts.append(f'<path d="{d}" fill="{fill}"/>')

    def legend(self, x, y, rows):
        for colour, words in rows:
            self.box(x, y, 16, 14, colour)
            self.text(x + 22, y + 12, words, 12)
            x += 46 + 6.2 * len(words)

    def write(self, path, height):
        head = HEAD.format(width=self.width, height=height, inner=self.width - 1, low=height - 1, title=escape(self.title), ink=INK, paper=PAPER, line=LINE)
        path.write_text("\n".join([head, *self.parts, "</svg>"]) + "\n")


def stretches(values):
    """Stretches of equal values: from, to, value."""
    since = 0
    for i in range(1, len(values) + 1):
        if i == len(values) or values[i] != values[since]:
            yield since, i, values[since]
            since = i
