"""The frame of an SVG document."""

FONT = "DejaVu Sans Mono, Menlo, Consolas, monospace"


def document(width, height, inside):
    """A document of this size, in pixels, on white."""
    size = f'width="{width:.0f}" height="{height:.0f}"'
    head = f'<svg xmlns="http://www.w3.org/2000/svg" {size} viewBox="0 0 {width:.0f} {height:.0f}" font-family="{FONT}">'
    return f'{head}\n<rect {size} fill="#ffffff"/>\n{inside}\n</svg>\n'
