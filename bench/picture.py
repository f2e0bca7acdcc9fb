#!/usr/bin/env python3
"""Draws a table of ratios: `bench/picture.py < docs/BENCHMARKS.md > docs/benchmarks.svg`.

It reads the first table: each row has a workload and the ratio of its instructions to winnow's in the
same form. Each row with a ratio becomes a bar with its number on the right; a line marks equal
numbers. The picture needs no colours, and adapts to light and dark mode.
"""
import html
import sys

ROW, TOP, LEFT, WIDE, MOST = 22, 46, 350, 400, 1.5
STYLE = """
text { font: 13px sans-serif; fill: #1f2328; }
.title { font-weight: bold; }
.less { fill: #57606a; }
.more { fill: none; stroke: #57606a; stroke-width: 2; }
.one { stroke: #1f2328; stroke-dasharray: 4 3; }
@media (prefers-color-scheme: dark) {
  text { fill: #e6edf3; }
  .less { fill: #9da7b3; }
  .more { stroke: #9da7b3; }
  .one { stroke: #e6edf3; }
}
"""


def rows(text):
    """Returns the rows of the first table with numbers in the second column: workload and number."""
    found = []
    for line in text.splitlines():
        cells = [it.strip() for it in line.strip().strip("|").split("|")]
        try:
            found.append((cells[0], float(cells[1])))
        except (IndexError, ValueError):
            if found and not line.startswith("|"):
                break
    return found


def place(ratio):
    return LEFT + round(WIDE * min(ratio, MOST) / MOST)


def drawn(found):
    height = TOP + ROW * len(found) + 10
    one = place(1)
    yield (
        f'<svg xmlns="http://www.w3.org/2000/svg" viewBox="0 0 {LEFT + WIDE + 60} {height}" '
        f'role="img" aria-label="Instructions compared with winnow 1.0.5 in the same form">'
    )
    yield f"<style>{STYLE}</style>"
    yield '<text class="title" x="10" y="20">Instructions compared with winnow 1.0.5 in the same form</text>'
    yield f'<text x="{one}" y="38" text-anchor="middle">1: as winnow</text>'
    for at, (name, ratio) in enumerate(found):
        y, label = TOP + ROW * at, html.escape(name.replace("`", ""))
        # bars up to winnow's number are filled, longer ones are hollow
        kind = "less" if ratio <= 1 else "more"
        end = place(ratio)
        yield (
            f'<text x="{LEFT - 8}" y="{y + 14}" text-anchor="end">{label}</text>'
            f'<rect class="{kind}" x="{LEFT}" y="{y + 3}" width="{end - LEFT}" height="14"/>'
            f'<text x="{LEFT + WIDE + 45}" y="{y + 14}" text-anchor="end">{ratio:.2f}</text>'
        )
    yield f'<line class="one" x1="{one}" x2="{one}" y1="{TOP - 4}" y2="{height - 6}"/>'
    yield "</svg>"


def main():
    found = rows(sys.stdin.read())
    if not found:
        sys.exit("no table with a number in its second column")
    print("\n".join(drawn(found)))


if __name__ == "__main__":
    main()
