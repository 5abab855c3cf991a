"""A report as Markdown, and as one page of HTML with a table of cells for each table of scripts. What a server sent is
never taken for markup."""
import html
import re

from conform.expected import full_name
from conform.report import OUTCOMES, data_of, of_tables, shortest, told_row, told_what
from conform.steps import short

# How many cells a line has: of sharing a line is one way to open, else it is what fits a page.
WIDTHS, USUAL = {'sharing': 72}, 48
# How many characters of a frame are shown.
LONGEST = 2_000
STYLE = """
body { font: 15px/1.4 sans-serif; margin: 2em auto; max-width: 75em; padding: 0 1em }
pre { background: #8881; overflow: auto; padding: .5em; white-space: pre-wrap; overflow-wrap: anywhere }
.cells { display: grid; gap: 1px; justify-content: start; font: 9px/12px monospace }
.cells > * { color: #000; display: block; height: 12px; text-align: center; text-decoration: none; width: 12px }
.equal { background: #b7dfb1 } .meant { background: #f6df8e } .differs { background: #ee8a80 } .not { background: #ccc }
"""


def markdown(report):
    return '\n'.join(markdown_lines(report)) + '\n'


def markdown_lines(report):
    head = list(report.head())
    yield from ('# Answers beside those of the share', '', marked(head[0]), '')
    yield from (f'- {marked(it)}' for it in [*head[1:], *report.by_table()])
    for of_row in report.by_row():
        yield from ('', f'## {marked(told_row(of_row.row))}: {of_row.count:,} differ')
        for group in of_row.groups:
            yield from ('', f'**{marked(told_what(group))}** ({of_tables(group)})', '', '```')
            yield from (fenced(it) for it in told_shortest(group))
            yield '```'
    notes = list(report.notes())
    if notes:
        yield from ('', '## Besides', '')
        yield from (f'- {marked(it)}' for it in notes)


def marked(text):
    """A text in which nothing is Markdown or HTML."""
    return re.sub(r'([\\`*_\[\]<>|#&])', r'\\\1', text)


def fenced(text):
    """A line that ends no block of code."""
    return text.replace('```', "'''")


def told_shortest(group):
    """The lines of a group's shortest script."""
    it = data_of(shortest(group.differences))
    yield it['script']
    yield from (f'  {i} {words}' for i, words in enumerate([*it['steps'], it['step']], 1))
    yield f'sent:   {short(it["sent"], LONGEST)}'
    yield f'wanted: {short(it["answers"]["wanted"], LONGEST)}'
    yield f'found:  {short(it["answers"]["found"], LONGEST)}'
    yield f'all:    {" ".join(full_name(one.script) for one in group.differences)}'


def page(report):
    """One page of HTML, which needs nothing else."""
    return '\n'.join(page_lines(report)) + '\n'


def page_lines(report):
    head = list(report.head())
    yield ('<!DOCTYPE html><html lang="en"><head><meta charset="utf-8"><title>Answers beside those of the share</title>'
           f'<style>{STYLE}</style></head><body><h1>Answers beside those of the share</h1>')
    yield f'<p>{"<br>".join(map(html.escape, head))}</p>'
    yield f'<p>{" ".join(told_outcome(it) for it in OUTCOMES)}: each cell is a script, and has its name.</p>'
    groups = [(of_row, group) for of_row in report.by_row() for group in of_row.groups]
    places = {full_name(it.script): i for i, (_, group) in enumerate(groups) for it in group.differences}
    outcomes = report.outcomes()
    for table, told in zip(report.planned, report.by_table()):
        yield from cells(table, told, [it for it in outcomes.items() if it[0].startswith(f'{table}/')], places)
    yield '<h2>What differs</h2>'
    last = None
    for i, (of_row, group) in enumerate(groups):
        if of_row is not last:
            yield f'<h3>{html.escape(told_row(of_row.row))}: {of_row.count:,} differ</h3>'
        last = of_row
        yield f'<p id="d{i}">{html.escape(told_what(group))} ({html.escape(of_tables(group))})</p>'
        lines = '\n'.join(map(html.escape, told_shortest(group)))
        yield f'<pre>{lines}</pre>'
    notes = ''.join(f'<li>{html.escape(it)}</li>' for it in report.notes())
    yield f'<h2>Besides</h2><ul>{notes}</ul></body></html>' if notes else '</body></html>'


def style_of(outcome):
    return outcome.split(' ')[0]


def told_outcome(outcome):
    return f'<span class="{style_of(outcome)}">&nbsp;{OUTCOMES[outcome]}&nbsp;</span> {outcome}'


def cells(table, told, outcomes, places):
    """The cells of a table, each with its script's name; one that differs leads to what differs."""
    yield f'<h2>{html.escape(table)}</h2><p>{html.escape(told)}</p>'
    yield f'<div class="cells" style="grid-template-columns: repeat({WIDTHS.get(table, USUAL)}, 12px)">'
    for name, outcome in outcomes:
        about = f'class="{style_of(outcome)}" title="{html.escape(name)}"'
        place = f'<a href="#d{places[name]}" {about}>' if name in places else f'<span {about}>'
        yield f'{place}{OUTCOMES[outcome]}{"</a>" if name in places else "</span>"}'
    yield '</div>'
