#!/usr/bin/env python3
"""pictures.py: makes docs/pictures/NAME.svg of each NAME.dot, by graphviz, with colours for light and dark pages."""
import pathlib
import re
import subprocess

FOLDER = pathlib.Path(__file__).parent.parent / "docs" / "pictures"
STYLE = """<style>
text { font: 13px sans-serif; fill: #1f2328; }
.node path, .node polygon, .node ellipse { fill: #f6f8fa; stroke: #57606a; stroke-width: 1.2; }
.node.strong path, .node path.strong { fill: #ddf4ff; stroke: #0969da; }
.node.end path, .node path.end { fill: #dafbe1; stroke: #1a7f37; }
.node path.refused, .node polygon.refused { fill: #ffebe9; stroke: #cf222e; }
.node polygon.end { fill: #dafbe1; stroke: #1a7f37; }
.node.start ellipse { fill: #57606a; }
.edge path { fill: none; stroke: #57606a; }
.edge polygon { fill: #57606a; stroke: #57606a; }
.edge text { font-size: 11px; fill: #57606a; }
.cluster path { fill: none; stroke: #8c959f; stroke-dasharray: 4 3; }
.cluster text { fill: #57606a; font-style: italic; }
@media (prefers-color-scheme: dark) {
text { fill: #e6edf3; }
.node path, .node polygon, .node ellipse { fill: #21262d; stroke: #8b949e; }
.node.strong path, .node path.strong { fill: #0c2d6b; stroke: #58a6ff; }
.node.end path, .node path.end { fill: #033a16; stroke: #3fb950; }
.node path.refused, .node polygon.refused { fill: #3c1618; stroke: #f85149; }
.node polygon.end { fill: #033a16; stroke: #3fb950; }
.node.start ellipse { fill: #8b949e; }
.edge path { stroke: #8b949e; }
.edge polygon { fill: #8b949e; stroke: #8b949e; }
.edge text { fill: #8b949e; }
.cluster path { stroke: #6e7681; }
.cluster text { fill: #8b949e; }
}
</style>
"""
LOOKS = {"lightblue": "strong", "lightgreen": "end", "palegreen": "end", "salmon": "refused"}
LOOK = ["-Nshape=box", "-Nstyle=rounded", "-Nfontname=sans-serif", "-Nfontsize=13", "-Efontname=sans-serif", "-Efontsize=11",
        "-Gfontname=sans-serif", "-Gfontsize=13", "-Gbgcolor=transparent", "-Gstyle=rounded", "-Earrowsize=0.7"]


def picture(source):
    """The picture of a graph's source. The page's style gives the colours, so those of graphviz go, but for cells of a table."""
    made = subprocess.run(["dot", "-Tsvg", *LOOK, str(source)], check=True, capture_output=True, text=True).stdout
    made = re.sub(r'<(?:!--.*?--|\?xml.*?\?|!DOCTYPE.*?)>\s*', "", made, flags=re.S)
    for colour, look in LOOKS.items():
        made = made.replace(f'fill="{colour}"', f'class="{look}"')
    made = re.sub(r' (?:fill|stroke|font-family|font-size|xlink:title)="[^"]*"', "", made)
    made = re.sub(r"<title>[^<]*</title>\s*", "", made)
    return re.sub(r"(<svg[^>]*>\s*)", lambda start: start[1] + STYLE, made, count=1)


for source in sorted(FOLDER.glob("*.dot")):
    source.with_suffix(".svg").write_text(picture(source))
