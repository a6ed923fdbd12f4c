"""What the tools that draw share: a picture of boxes and texts, and its colours."""

import os
from html import escape

from shared.program import TOP

FONT = 'font-family="Helvetica, Arial, sans-serif"'
INK, PALE, LOST, DX, RX, BOTH = "#1b2a38", "#f4f6f8", "#ffffff", "#bcd9f2", "#f9dfb3", "#cbe6c4"


class Picture:
    """Boxes and texts, and the file that they make."""

    def __init__(self, width, height, title):
        self.width, self.height, self.title, self.parts = width, height, title, []

    def text(self, x, y, words, size=13, anchor="start", weight="normal"):
        self.parts.append(f'<text x="{x}" y="{y}" font-size="{size}" text-anchor="{anchor}" font-weight="{weight}" fill="{INK}">{escape(words)}</text>')

    def box(self, x, y, width, height, fill, words="", dashed=False, size=12):
        dash = ' stroke-dasharray="3 3"' if dashed else ""
        self.parts.append(f'<rect x="{x}" y="{y}" width="{width}" height="{height}" rx="3" fill="{fill}" stroke="{INK}" stroke-width="1"{dash}/>')
        if words:
            self.text(x + width / 2, y + height / 2 + 4, words, size, "middle")

    def arc(self, left, right, y, depth):
        self.parts.append(f'<path d="M {left} {y} C {left} {y + depth}, {right} {y + depth}, {right} {y}" fill="none" stroke="{INK}"/>')

    def svg(self):
        """The text of the file."""
        body = "\n".join(self.parts)
        return (
            f'<svg xmlns="http://www.w3.org/2000/svg" viewBox="0 0 {self.width} {self.height}" width="{self.width}" height="{self.height}" {FONT}>\n'
            f"<title>{escape(self.title)}</title>\n"
            f'<rect width="{self.width}" height="{self.height}" fill="{PALE}"/>\n{body}\n</svg>\n'
        )

    def save(self, name):
        with open(os.path.join(TOP, "docs", "pictures", name), "w", encoding="utf-8") as file:
            file.write(self.svg())
