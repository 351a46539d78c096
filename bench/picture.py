"""A picture in SVG, which bench/report.py draws its charts with."""

INK = "#222222"
GREY = "#666666"
PALE = "#dde2e7"
COLOURS = {"u8": "#c2384b", "u16": "#a86800", "u32": "#12866b", "u64": "#3269b3"}
# The shapes of marks, as paths from the place of a mark on: those that are filled, and those whose edge alone is drawn, in which
# filled ones have room.
FILLED = {
    "dot": "m-4 0a4 4 0 1 0 8 0a4 4 0 1 0 -8 0Z",
    "triangle": "m-5 4h10l-5 -9Z",
    "diamond": "m0 -5l5 5l-5 5l-5 -5Z",
}
OPEN = {
    "ring": "m-7 0a7 7 0 1 0 14 0a7 7 0 1 0 -14 0Z",
    "square": "m-6.5 -6.5h13v13h-13Z",
    "cross": "m-4 -4l8 8m0 -8l-8 8",
}

WIDTH = 900
LEFT, RIGHT = 44, 888


class Picture:
    """An SVG picture on white, which reads on a light page and on a dark one."""

    def __init__(self, height, title):
        self.lines = [
            f'<svg xmlns="http://www.w3.org/2000/svg" viewBox="0 0 {WIDTH} {height}" width="{WIDTH}"'
            f' height="{height}" role="img" font-family="DejaVu Sans, Verdana, Arial, sans-serif">',
            f"<title>{title}</title>",
        ]
        self.box(0, 0, WIDTH, height, "#ffffff")

    def text(self, x, y, text, size=11, anchor="start", weight="normal", fill=INK):
        """A text with a white edge, which keeps it apart from lines behind it."""
        self.lines.append(
            f'<text x="{x:.1f}" y="{y:.1f}" font-size="{size}" text-anchor="{anchor}" font-weight="{weight}"'
            f' fill="{fill}" stroke="#ffffff" stroke-width="3" paint-order="stroke">{text}</text>'
        )

    def line(self, points, stroke, width=1.0):
        at = " ".join(f"{x:.1f},{y:.1f}" for x, y in points)
        style = f'stroke="{stroke}" stroke-width="{width}" stroke-linejoin="round"'
        self.lines.append(f'<polyline points="{at}" fill="none" {style}/>')

    def box(self, x, y, width, height, fill):
        size = f'width="{width:.1f}" height="{height:.1f}"'
        self.lines.append(f'<rect x="{x:.1f}" y="{y:.1f}" {size} fill="{fill}"/>')

    def dot(self, x, y, fill):
        self.lines.append(f'<circle cx="{x:.1f}" cy="{y:.1f}" r="4" fill="{fill}"/>')

    def mark(self, x, y, shape, colour):
        """A mark of one of the shapes."""
        style = f'fill="{colour}"' if shape in FILLED else f'fill="none" stroke="{colour}" stroke-width="2"'
        self.lines.append(f'<path d="M{x:.1f} {y:.1f}{(FILLED | OPEN)[shape]}" {style}/>')

    def triangle(self, x, y, tip, fill):
        """A triangle whose base is at the height y, and its tip so much below it."""
        self.lines.append(f'<path d="M{x - 4:.1f} {y:.1f}h8l-4 {tip}Z" fill="{fill}"/>')

    def whole(self):
        return "\n".join([*self.lines, "</svg>"]) + "\n"
