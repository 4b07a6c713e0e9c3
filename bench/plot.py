"""bench/beside.svg: user instructions a query beside NSD and Knot, from the values of bench/beside.csv. With `check` it says whether the drawing is theirs."""
import csv
import os
import sys
from xml.sax.saxutils import escape

HERE = os.path.dirname(os.path.abspath(__file__))
SERVERS = {"dnschain": "#0969da", "NSD": "#8c959f", "Knot": "#57606a"}
LEFT, BAR, GAP, WIDE = 250, 16, 16, 560


def values():
    """Instructions a query by case and server, of the zone of 1,000 hosts, one query at a time."""
    found = {}
    with open(os.path.join(HERE, "beside.csv"), newline="", encoding="utf-8") as file:
        for row in csv.DictReader(file):
            if row["half"] == "instructions" and row["measure"] in ("instructions", "queries") and row["hosts"] == "1000":
                found.setdefault((row["case"], row["server"]), {})[row["measure"]] = int(row["value"])
    return {where: each["instructions"] / each["queries"] for where, each in found.items()}


def drawing():
    found = values()
    cases = list(dict.fromkeys(case for case, _ in found))
    most, y, shapes = max(found.values()), 48, []
    for case in cases:
        shapes.append(f'<text x="{LEFT - 12}" y="{y + 1.9 * BAR}" text-anchor="end">{escape(case)}</text>')
        for server, colour in SERVERS.items():
            wide = found[case, server] / most * WIDE
            shapes.append(f'<rect x="{LEFT}" y="{y}" width="{wide:.1f}" height="{BAR - 2}" fill="{colour}"/>'
                          f'<text x="{LEFT + wide + 6:.1f}" y="{y + BAR - 4}" font-size="11">{escape(server)} {found[case, server]:,.0f}</text>')
            y += BAR
        y += GAP
    width = LEFT + WIDE + 130
    return (f'<svg xmlns="http://www.w3.org/2000/svg" width="{width}" height="{y}" viewBox="0 0 {width} {y}" font-family="sans-serif" font-size="12">\n'
            "<style>text { fill: #1f2328 } @media (prefers-color-scheme: dark) { text { fill: #e6edf3 } }</style>\n"
            '<text x="20" y="26" font-size="16" font-weight="bold">User instructions a query, of a zone of 1,000 hosts</text>\n'
            + "\n".join(shapes) + "\n</svg>\n")


def main(words):
    path = os.path.join(HERE, "beside.svg")
    if words == ["check"]:
        with open(path, encoding="utf-8") as file:
            if file.read() != drawing():
                print("bench/beside.svg isn't the drawing of bench/beside.csv: python3 bench/plot.py")
                return 1
        return 0
    with open(path, "w", encoding="utf-8") as file:
        file.write(drawing())
    return 0


if __name__ == "__main__":
    sys.exit(main(sys.argv[1:]))
