"""What the scripts of this folder share that write pictures (SVG), without a library."""
import html
import sys

sys.dont_write_bytecode = True


class Drawing:
    """Lines and words in a picture of this size, in pixels."""

    def __init__(self, width, height, family="sans-serif", ground="white"):
        self.head = f'<svg xmlns="http://www.w3.org/2000/svg" viewBox="0 0 {width} {height}" width="{width}" height="{height}" font-family="{family}" font-size="12">'
        self.shapes = [f'<rect width="{width}" height="{height}" fill="{ground}"/>']

    def line(self, points, color="black", width=1.0):
        path = " ".join(f"{x:.1f},{y:.1f}" for x, y in points)
        self.shapes.append(f'<polyline points="{path}" fill="none" stroke="{color}" stroke-width="{width}"/>')

    def bar(self, x, y, width, height, color):
        self.shapes.append(f'<rect x="{x:.1f}" y="{y:.1f}" width="{width:.1f}" height="{height:.1f}" fill="{color}"/>')

    def dot(self, x, y, color):
        self.shapes.append(f'<circle cx="{x:.1f}" cy="{y:.1f}" r="2.5" fill="{color}"/>')

    def words(self, x, y, text, anchor="start", color="black"):
        self.shapes.append(f'<text x="{x:.1f}" y="{y:.1f}" text-anchor="{anchor}" fill="{color}">{html.escape(text)}</text>')

    def text(self):
        return "\n".join([self.head, *self.shapes, "</svg>", ""])

    def save(self, path):
        path.write_text(self.text(), encoding="utf-8")
