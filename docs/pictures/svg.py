"""What both pictures share: a card that is legible on light and dark pages, text, lines. Nothing but the standard library."""
from xml.sax.saxutils import escape

FONT = "system-ui, -apple-system, 'Segoe UI', 'DejaVu Sans', Helvetica, Arial, sans-serif"
# class: (light, dark). The colours are Okabe and Ito's, which stay apart for every kind of colour vision; in the dark the blue and the green are lighter.
TEXT = {"ink": ("#1f2328", "#e6edf3"), "soft": ("#59636e", "#a0aab4")}
CARD = {"card": (("#ffffff", "#d1d9e0"), ("#0d1117", "#3d444d"))}


def style(strokes, fills):
    """The rules of the classes: `strokes` and `fills` map a class to its light and its dark colour."""

    def rules(k):
        out = [f".{name}{{fill:{pair[k]}}}" for name, pair in {**TEXT, **fills}.items()]
        out += [f".{name}{{stroke:{pair[k]};fill:none}}" for name, pair in strokes.items()]
        fill, edge = CARD["card"][k]
        return "".join(out + [f".card{{fill:{fill};stroke:{edge}}}"])

    return f"<style>text{{font-family:{FONT}}}{rules(0)}@media (prefers-color-scheme:dark){{{rules(1)}}}</style>"


def number(x):
    return f"{x:.1f}".rstrip("0").rstrip(".")


def text(x, y, words, size=12, anchor="start", kind="ink", more=""):
    return f'<text class="{kind}" x="{number(x)}" y="{number(y)}" font-size="{size}" text-anchor="{anchor}"{more}>{escape(words)}</text>'


def line(x1, y1, x2, y2, kind, width=1.0, more=""):
    return f'<line class="{kind}" x1="{number(x1)}" y1="{number(y1)}" x2="{number(x2)}" y2="{number(y2)}" stroke-width="{width}"{more}/>'


def path(d, kind, width=1.5, more=""):
    return f'<path class="{kind}" d="{d}" stroke-width="{width}" stroke-linejoin="round"{more}/>'


def page(width, height, title, description, css, body):
    return "\n".join([
        f'<svg xmlns="http://www.w3.org/2000/svg" viewBox="0 0 {width} {height}" width="{width}" height="{height}" role="img">',
        f"<title>{escape(title)}</title><desc>{escape(description)}</desc>",
        css,
        f'<rect class="card" x="0.5" y="0.5" width="{width - 1}" height="{height - 1}" rx="10"/>',
        *body,
        "</svg>",
        "",
    ])
