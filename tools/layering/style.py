# How the picture of the crates looks: its comment, its style and its arrow heads. Colours are never the only sign.

HEAD = "<!-- The crates of crates.txt in layers, drawn by `tools/crates`. -->\n"

STYLE = """
    text { font-family: "DejaVu Sans", Verdana, Arial, sans-serif; fill: #222222; }
    .page { fill: #ffffff; }
    .band { fill: #f4f6f8; }
    .heading { font-size: 17px; font-weight: bold; }
    .label { font-size: 13px; fill: #444444; }
    .number { font-size: 12px; fill: #777777; }
    .inner text, .public text, .test text { font-size: 14px; text-anchor: middle; }
    .inner rect { fill: #e3eef9; stroke: #2a69ac; }
    .public rect { fill: #fff1c9; stroke: #8a6500; stroke-width: 3; }
    .public text { font-weight: bold; }
    .test rect { fill: #ffffff; stroke: #666666; stroke-dasharray: 5 3; }
    .test text { fill: #444444; }
    .arrows path { fill: none; stroke-width: 1.5; }
    .arrows .arrow { stroke: #4a5b6c; }
    .arrows .test { stroke: #888888; stroke-dasharray: 5 3; }
  """

MARKER = """<defs>
<marker id="arrow-head" viewBox="0 0 8 8" refX="0" refY="4" markerWidth="8" markerHeight="8" markerUnits="userSpaceOnUse" orient="auto"><path d="M 0 0 L 8 4 L 0 8 z" fill="#4a5b6c" /></marker>
<marker id="test-head" viewBox="0 0 8 8" refX="0" refY="4" markerWidth="8" markerHeight="8" markerUnits="userSpaceOnUse" orient="auto"><path d="M 0 0 L 8 4 L 0 8 z" fill="#888888" /></marker>
</defs>"""
