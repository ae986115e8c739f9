"""The look that all pictures share: letters, colours, and what stands around a drawing.

Source: w3.org, "SVG 1.1" (title, desc, style) and "XML 1.0" 2.4; the colours are told apart in black and white.
"""
from __future__ import annotations

from typing import Iterable, List

from .shown import shown

LETTERS = "DejaVu Sans, Verdana, Helvetica, sans-serif"
DARK, GREY, PALE, RED, BLUE = "#1c1c1c", "#767676", "#d9d9d9", "#c00000", "#2b6ca3"
# A colour for each loop, from 0 on, dark enough beside white; they repeat after eight.
LOOPS = ["#2b6ca3", "#b35900", "#4a7d2b", "#7a4a9e", "#9c2f45", "#2a7d7d", "#6b5b00", "#555555"]


def said(word: bytes) -> str:
    """A word of others as it is shown, as text."""
    return shown(word).decode()


def xml(text: str) -> str:
    """A text in XML."""
    return "".join({"&": "&amp;", "<": "&lt;", ">": "&gt;", '"': "&quot;", "'": "&#39;"}.get(c, c) for c in text)


def words(x: float, y: float, text: str, more: str = "") -> str:
    """A text at a place; `more` are attributes."""
    return f"<text x='{x:g}' y='{y:g}'{' ' + more if more else ''}>{xml(text)}</text>"


def document(width: int, height: int, title: str, about: str, styles: Iterable[str], parts: List[str]) -> bytes:
    """An SVG document with a white ground, its title and what it shows in words, and no script."""
    style = f"text{{font:12px {LETTERS};fill:{DARK}}}.title{{font-weight:bold}}" + "".join(styles)
    lines = [
        f"<svg xmlns='http://www.w3.org/2000/svg' version='1.1' role='img' width='{width}' height='{height}' "
        f"viewBox='0 0 {width} {height}' aria-labelledby='title about'>",
        f"<title id='title'>{xml(title)}</title>", f"<desc id='about'>{xml(about)}</desc>",
        f"<style>{style}</style>", f"<path fill='white' d='M0 0H{width}V{height}H0z'/>", *parts, "</svg>"]
    return ("\n".join(lines) + "\n").encode()
