"""Elements of an SVG picture, as texts."""
from xml.sax.saxutils import escape


def attributes(**given):
    return "".join(f' {name.replace("_", "-")}="{escape(str(value), {chr(34): "&quot;"})}"' for name, value in given.items() if value is not None)


def box(x, y, width, height, title=None, **given):
    inner = f"<title>{escape(title)}</title>" if title else ""
    return f'<rect{attributes(x=round(x, 1), y=round(y, 1), width=round(max(width, 0), 1), height=round(max(height, 0), 1), **given)}>{inner}</rect>'


def text(x, y, words, **given):
    return f"<text{attributes(x=round(x, 1), y=round(y, 1), **given)}>{escape(words)}</text>"


def turned(x, y, words, **given):
    """A text that is read from below."""
    return text(x, y, words, transform=f"rotate(-90 {x:.1f} {y:.1f})", **given)


def path(points, **given):
    moves = " ".join(f"{'M' if not place else 'L'}{x:.1f},{y:.1f}" for place, (x, y) in enumerate(points))
    return f"<path{attributes(d=moves, fill='none', **given)}/>"


def curve(x, y, to_x, to_y, **given):
    middle = (y + to_y) / 2
    return f"<path{attributes(d=f'M{x:.1f},{y:.1f} C{x:.1f},{middle:.1f} {to_x:.1f},{middle:.1f} {to_x:.1f},{to_y:.1f}', fill='none', **given)}/>"


def picture(width, height, styles, definitions, parts):
    return (f'<svg xmlns="http://www.w3.org/2000/svg" viewBox="0 0 {width:.0f} {height:.0f}" width="{width:.0f}" height="{height:.0f}">\n'
            f"<style>{styles}</style>\n<defs>{definitions}</defs>\n" + "\n".join(parts) + "\n</svg>\n")
