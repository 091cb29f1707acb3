"""A card as one page of HTML, without scripts: for a phone, for paper, in light and dark."""

from __future__ import annotations

import html

from .cards import Card, Name, Part, PlanCard, Step, Words, joined, share
from .pictures import picture_of

# The heading of the chances of rows.
CHANCE = "cases of 100"
# The widths of the columns of all tables, so that times are below each other: in parts of a hundred, or what is left.
WIDTHS = ("16%", "28%", "11%", "", "11%", "10%")
STYLE = """
:root { color-scheme: light dark; --page: #fff; --ink: #111; --line: #bbb; }
body { font: 1.05rem/1.45 system-ui, sans-serif; max-width: 46rem; margin: 0 auto; padding: 1rem; overflow-wrap: anywhere;
  color: var(--ink); background: var(--page); }
h1 { font-size: 1.4rem; margin: 0 0 .5rem; }
h2 { font-size: 1.1rem; margin: 1.4rem 0 .4rem; border-bottom: 2px solid; }
p { margin: .2rem 0; }
table { width: 100%; table-layout: fixed; border-collapse: collapse; }
th, td { text-align: left; vertical-align: top; padding: .35rem .5rem .35rem 0; border-bottom: 1px solid var(--line); }
th { font-size: .9rem; font-weight: 600; }
th:last-child, td:last-child { padding-right: 0; }
td.time { font-variant-numeric: tabular-nums; }
tr.way td { font-weight: 600; }
tr.rare td { font-size: .85rem; opacity: .8; }
footer { margin-top: 1.5rem; font-size: .95rem; }
svg.picture { display: block; width: 100%; margin: 1rem 0; fill: currentColor; font: 12px system-ui, sans-serif; }
svg path { fill: none; vector-effect: non-scaling-stroke; }
svg .grid, svg .place { stroke: currentColor; stroke-width: 1; opacity: .2; }
svg .place { opacity: .5; }
svg .way, svg .rescue { stroke-linecap: round; }
svg .rescue { opacity: .7; }
svg .late { opacity: .15; }
svg .change { stroke: currentColor; stroke-width: 3; opacity: .45; }
svg .walk { stroke: currentColor; stroke-width: 1.5; stroke-dasharray: 2 3; opacity: .6; }
svg .by { stroke: currentColor; stroke-width: 1.5; }
svg .bar { fill: currentColor; opacity: .65; }
svg text { paint-order: stroke; stroke: var(--page); stroke-width: 3px; stroke-linejoin: round; }
svg .clock, svg .count { text-anchor: middle; }
svg .name { font-weight: 600; }
svg .right { text-anchor: end; }
@media (prefers-color-scheme: dark) { :root { --page: #111; --ink: #eee; --line: #555; } }
@media (max-width: 30rem) {
  thead { position: absolute; left: -99rem; }
  table, tbody { display: block; }
  tr { display: block; border-bottom: 1px solid var(--line); padding: .35rem 0; }
  td { display: block; border: 0; padding: 0 0 0 9rem; }
  td:empty { display: none; }
  td::before { content: attr(data-head); float: left; width: 9rem; margin-left: -9rem; font-size: .85rem; font-weight: 400; }
}
@media print {
  :root { --page: #fff; --ink: #000; --line: #bbb; }
  body { font-size: 11pt; padding: 0; }
  tr, svg { break-inside: avoid; }
  h2 { break-after: avoid; }
}
"""


def cell(head: str, text: str, kind: str = "") -> str:
    """A cell, with the heading of its column, which a narrow page shows beside it."""
    return f'<td{kind} data-head="{html.escape(head)}">{text}</td>'


class Page:
    """The page of a card. Its sentences are in English, and the names in the language of the feed, as far as that is known."""

    def __init__(self, card: Card) -> None:
        self.card = card

    def marked(self, words: Words) -> str:
        """Words with their names isolated, so that a name written from right to left does not reorder the text beside it."""
        return "".join(f'<bdi lang="{self.card.names.language}">{html.escape(word.text)}</bdi>' if isinstance(word, Name) else html.escape(word)
                       for word in words)

    def row(self, step: Step, heads: list[str]) -> str:
        time = ' class="time"'
        cells = [(html.escape(step.until), time), (self.marked(step.ride), ""), (html.escape(step.departure), time),
                 (self.marked(step.target), ""), (html.escape(step.arrival), time),
                 (share(step.chance) if step.chance is not None else "", time)]
        kind = ' class="rare"' if step.is_rare() else ' class="way"' if step.is_on_time else ""
        return f'<tr{kind}>{"".join(cell(head, *of) for head, of in zip(heads, cells))}</tr>'

    def table(self, part: Part) -> list[str]:
        heads = [part.columns[0] if any(step.until for step in part.steps) else "", *part.columns[1:],
                 CHANCE if any(step.chance is not None for step in part.steps) else ""]
        widths = "".join(f'<col style="width:{width}">' if width else "<col>" for width in WIDTHS)
        head = "".join(f'<th scope="col">{html.escape(text)}</th>' if text else "<td></td>" for text in heads)
        rows = [self.row(step, heads) for step in part.steps]
        return ["<table>", f"<colgroup>{widths}</colgroup>", f"<thead><tr>{head}</tr></thead>", "<tbody>", *rows, "</tbody>", "</table>"]

    def picture(self) -> list[str]:
        found = picture_of(self.card, self.card.course) if isinstance(self.card, PlanCard) and self.card.course else None
        return [found] if found else []

    def text(self) -> str:
        card, title = self.card, html.escape(joined(self.card.title()))
        lines = ["<!DOCTYPE html>", '<html lang="en">', "<head>", '<meta charset="utf-8">',
                 '<meta name="viewport" content="width=device-width, initial-scale=1">', f"<title>{title}</title>",
                 f"<style>{STYLE}</style>", "</head>", "<body>", "<main>", f"<h1>{self.marked(card.title())}</h1>"]
        lines += [*(f"<p>{html.escape(line)}</p>" for line in card.head()), *self.picture()]
        for part in card.parts():
            lines += ["<section>", f"<h2>{self.marked(part.heading)}</h2>", *self.table(part), "</section>"]
        lines.append("</main>")
        if card.foot():
            lines += ["<footer>", *(f"<p>{html.escape(line)}</p>" for line in card.foot() if line != card.of_chances), "</footer>"]
        return "\n".join([*lines, "</body>", "</html>"]) + "\n"


def as_page(card: Card) -> str:
    return Page(card).text()
