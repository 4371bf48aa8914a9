# How a picture looks: its comment, its style and the hatch of marks that differ. Colours are never the only sign.

HEAD = "<!-- A word of a patch file with its readings, drawn by `tools/look picture`. -->\n"

STYLE = """
    text { font-family: "DejaVu Sans", Verdana, Arial, sans-serif; fill: #222222; }
    .page { fill: #ffffff; }
    .heading { font-size: 17px; font-weight: bold; }
    .name { font-size: 13px; font-weight: bold; }
    .label { font-size: 12px; fill: #555555; }
    .none { font-size: 14px; font-style: italic; }
    .point { font-size: 11px; fill: #555555; text-anchor: middle; }
    .message, .symbol { font-family: "DejaVu Sans Mono", Menlo, Consolas, monospace; font-size: 13px; }
    .symbol, .sign { text-anchor: middle; }
    .sign { font-size: 13px; font-weight: bold; }
    .mark rect { fill: #ffffff; stroke: #333333; stroke-width: 1.5; }
    .agree rect, .key-agree rect { fill: #d3e6f8; stroke: #2a69ac; }
    .agree text, .key-agree text { fill: #123a63; }
    .differ rect, .key-differ rect { fill: url(#hatch); stroke: #a8480f; stroke-dasharray: 3 2; }
    .differ text, .key-differ text { fill: #6b2a05; stroke: #fdeedd; stroke-width: 3px; paint-order: stroke; }
  """

DEFS = """<defs><pattern id="hatch" width="7" height="7" patternUnits="userSpaceOnUse" patternTransform="rotate(45)">
<rect width="7" height="7" fill="#fdeedd" /><rect width="2" height="7" fill="#f2bf94" /></pattern></defs>"""
