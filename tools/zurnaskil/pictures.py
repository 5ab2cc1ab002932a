"""Pictures as SVG texts, for `plan-picture` and `run-picture`."""
import re
from collections.abc import Iterable, Iterator

WIDEST = 32_767  # pixels that renderers take, across and down
LETTER, SMALL_LETTER = 7, 6  # pixels of a letter in a text of 12 and of 11, on the average
NO_LETTER = re.compile("[\0-\x08\x0b\x0c\x0e-\x1f\ud800-\udfff\ufffe\uffff]")  # XML has none of these


def escaped(text: object) -> str:
    """The text as XML has it."""
    return NO_LETTER.sub("\ufffd", str(text)).replace("&", "&amp;").replace("<", "&lt;").replace(">", "&gt;")


def label(x, y, text, size=12, anchor="middle"):
    return f'<text x="{x}" y="{y}" font-size="{size}" text-anchor="{anchor}">{escaped(text)}</text>'


def box(x, y, width, height, look: str) -> str:
    return f'<rect x="{x}" y="{y}" width="{width}" height="{height}" {look}/>'


def path(way: str, look: str) -> str:
    return f'<path d="{way}" {look}/>'


def lines_of(width: float, height: float, parts: Iterable[str]) -> Iterator[str]:
    """The lines of a picture of this size on a white ground."""
    yield (
        f'<svg xmlns="http://www.w3.org/2000/svg" width="{width}" height="{height}" viewBox="0 0 {width} {height}" '
        'font-family="sans-serif" fill="#222">'
    )
    yield f'<rect width="{width}" height="{height}" fill="#fff"/>'
    yield from parts
    yield "</svg>"


def text_of(width: float, height: float, parts: Iterable[str]) -> str:
    return "".join(f"{line}\n" for line in lines_of(width, height, parts))
