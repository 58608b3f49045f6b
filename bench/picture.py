"""Draws the picture of docs/speed.svg: a bar for each of some times, as long as its ratio to the time of the crate."""

LABELS = {'decode': 'decode', 'lookup': 'look up', 'rewrite': 'rewrite'}
LEFT, WIDTH, TOP, STEP, BAR = 90, 440, 74, 34, 20
STYLE = '''text { font: 14px system-ui, sans-serif; fill: #1f2328 }
.title { font-size: 16px; font-weight: 600 }
.small { font-size: 12px; fill: #59636e }
.page { fill: #ffffff }
.bar { fill: #2f6fd0 }
.crate { stroke: #59636e; stroke-dasharray: 4 3 }
@media (prefers-color-scheme: dark) {
  text { fill: #f0f6fc }
  .small { fill: #9198a1 }
  .page { fill: #0d1117 }
  .bar { fill: #5c9aff }
  .crate { stroke: #9198a1 }
}'''


def escaped(text):
    return text.replace('&', '&amp;').replace('<', '&lt;').replace('--', '- -')


def picture(figures, date, what, note):
    """The text of the SVG. `figures` has the ratio of each operation, `what` says of which maps, and `note` where the
    figures come from, for a comment."""
    longest = max(1, *figures.values())
    end = LEFT + WIDTH / longest
    bottom = TOP + STEP * len(figures)
    rows = []
    for number, (name, ratio) in enumerate(figures.items()):
        y = TOP + STEP * number
        rows.append(f'<text x="{LEFT - 10}" y="{y + 15}" text-anchor="end">{LABELS[name]}</text>'
                    f'<rect class="bar" x="{LEFT}" y="{y}" width="{WIDTH * ratio / longest:.1f}" height="{BAR}"/>'
                    f'<text x="{LEFT + WIDTH * ratio / longest + 8:.1f}" y="{y + 15}">{ratio:.2f}</text>')
    title = 'Time of this library, divided by that of the Rust crate'
    return '\n'.join([
        f'<svg xmlns="http://www.w3.org/2000/svg" width="640" height="{bottom + 28}" viewBox="0 0 640 {bottom + 28}" role="img">',
        f'<!-- {escaped(note)} -->',
        f'<title>{title}: {", ".join(f"{LABELS[name]} {ratio:.2f}" for name, ratio in figures.items())}</title>',
        f'<style>\n{STYLE}\n</style>',
        f'<rect class="page" width="640" height="{bottom + 28}" rx="6"/>',
        f'<text class="title" x="16" y="28">{title}</text>',
        f'<text class="small" x="16" y="48">processor time; shorter is faster; {escaped(what)}; {date}</text>',
        *rows,
        f'<line class="crate" x1="{end:.1f}" y1="{TOP - 8}" x2="{end:.1f}" y2="{bottom}"/>',
        f'<text class="small" x="{end:.1f}" y="{bottom + 16}" text-anchor="middle">1 = the crate</text>',
        '</svg>', ''])
