"""A picture as SVG text: shapes on a light ground, one a line."""

from html import escape

GROUND, INK, FAINT, LINE = "#ffffff", "#1c2530", "#5b6775", "#c3cad3"
SANS = "DejaVu Sans, Verdana, sans-serif"
MONO = "DejaVu Sans Mono, Menlo, monospace"


class Picture:
    def __init__(self, width, height, title):
        self.width, self.height = width, height
        self.shapes = [f"<title>{escape(title)}</title>", f'<rect width="{width}" height="{height}" fill="{GROUND}"/>']

    def put(self, name, **features):
        told = "".join(f' {key.rstrip("_").replace("_", "-")}="{value}"' for key, value in features.items())
        self.shapes.append(f"<{name}{told}/>")

    def text(self, x, y, words, size=13, fill=INK, anchor="start", weight="normal", font=SANS):
        self.shapes.append(f'<text x="{x:g}" y="{y:g}" font-family="{font}" font-size="{size}" fill="{fill}" '
                           f'text-anchor="{anchor}" font-weight="{weight}">{escape(words)}</text>')

    def line(self, x1, y1, x2, y2, stroke=LINE, width=1.5, dash=None):
        extra = {"stroke_dasharray": dash} if dash else {}
        self.put("line", x1=f"{x1:g}", y1=f"{y1:g}", x2=f"{x2:g}", y2=f"{y2:g}", stroke=stroke,
                 stroke_width=width, **extra)

    def box(self, x, y, width, height, fill, stroke="none", round_by=0):
        self.put("rect", x=f"{x:g}", y=f"{y:g}", width=f"{width:g}", height=f"{height:g}", fill=fill, stroke=stroke,
                 rx=round_by)

    def path(self, way, stroke=INK, width=1.5, fill="none", dash=None):
        extra = {"stroke_dasharray": dash} if dash else {}
        self.put("path", d=way, fill=fill, stroke=stroke, stroke_width=width, **extra)

    def svg(self):
        head = (f'<svg xmlns="http://www.w3.org/2000/svg" viewBox="0 0 {self.width} {self.height}" '
                f'width="{self.width}" height="{self.height}">')
        return "\n".join([head, *self.shapes, "</svg>"]) + "\n"
