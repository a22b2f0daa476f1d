"""A journal as one page of HTML that stands alone: a lane for each hart, sessions as bars, the transcript beside them."""
import html
from collections import Counter

from journal_reading import NO_ENDING

LONGEST_SHOWN = 8       # a longer stretch of steps, with no other entry between, is one row with a count for each hart

STYLE = """
:root { color-scheme: light dark; --paper: #ffffff; --ink: #1b2430; --soft: #5c6878; --rule: #d9dfe7; --lane: #c3ccd7;
  --master: #1d5fd1; --on-master: #ffffff; --held: #b4bfcc; --late: #b45309; --bad: #b3261e; --band: #f4f6f9; }
@media (prefers-color-scheme: dark) {
  :root { --paper: #11161d; --ink: #e4e9f0; --soft: #9aa7b7; --rule: #2c3642; --lane: #3d4957;
    --master: #6ea2ff; --on-master: #0b1220; --held: #566374; --late: #f2a65a; --bad: #ff8a80; --band: #1a212b; } }
* { box-sizing: border-box; }
body { margin: 0; padding: 1.5rem 2rem 4rem; background: var(--paper); color: var(--ink); font: 15px/1.45 system-ui, sans-serif; }
h1 { font-size: 1.35rem; margin: 0 0 .25rem; overflow-wrap: anywhere; }
h2 { font-size: 1.05rem; margin: 1.75rem 0 .5rem; }
p { margin: .25rem 0; max-width: 75rem; }
.soft { color: var(--soft); }
table { border-collapse: collapse; }
th { text-align: left; font-weight: 600; }
pre, .number, .code { font-family: ui-monospace, "DejaVu Sans Mono", monospace; font-size: .87em; }
pre { margin: 0; white-space: pre; line-height: 1.5; }
.sessions td, .sessions th { padding: .15rem 1.25rem .15rem 0; border-bottom: 1px solid var(--rule); vertical-align: top; }
a { color: var(--master); }
.key { display: flex; flex-wrap: wrap; gap: .35rem 1.5rem; margin: .5rem 0 0; padding: 0; list-style: none; }
.key li { display: flex; align-items: center; gap: .4rem; }
.key i { position: relative; display: inline-block; width: 1.75rem; height: 1.5rem; }
.entries th { position: sticky; top: 0; z-index: 2; background: var(--paper); border-bottom: 2px solid var(--rule);
  padding: .4rem .75rem; white-space: nowrap; }
.entries th.lane { text-align: center; padding: .4rem 0; }
.entries td { padding: .12rem .75rem; vertical-align: top; white-space: nowrap; }
.entries tr { scroll-margin-top: 2.5rem; }
.entries tr:hover td:not(.lane), .entries tr:target td:not(.lane) { background: var(--band); }
.entries .number { text-align: right; color: var(--soft); }
.entries .number, .entries .code { padding-top: .22rem; }
.entries pre { border-left: 3px solid var(--rule); padding-left: .75rem; }
.lane { position: relative; width: var(--wide); min-width: var(--wide); text-align: center; }
.entries td.lane { padding-left: 0; padding-right: 0; }
.lane b { position: relative; z-index: 1; display: inline-block; min-width: 1.4em; padding: 0 .25em; border-radius: .7em;
  font: 600 .85em/1.5 ui-monospace, "DejaVu Sans Mono", monospace; background: var(--paper); box-shadow: inset 0 0 0 1px var(--soft); }
.lane::before, .key i::before { content: ""; position: absolute; top: 0; bottom: 0; left: 50%; transform: translateX(-50%); }
.free::before { width: 1px; background: var(--lane); }
.master::before { width: 1.65em; background: var(--master); }
.held::before { width: .55em; background: var(--held); }
.late::before { border-left: 3px dashed var(--late); }
.lane.opens::before { top: 2px; border-top-left-radius: .6em; border-top-right-radius: .6em; }
.lane.closes::before { bottom: 2px; border-bottom-left-radius: .6em; border-bottom-right-radius: .6em; }
.lane.again::before { border-top: 2px solid var(--paper); }
.lane.master b { background: none; box-shadow: none; color: var(--on-master); }
.lane.late b { box-shadow: inset 0 0 0 1px var(--late); }
.bad { color: var(--bad); font-weight: 600; }
"""

KEY = (("master", "master, from the opening of its session to the closing"), ("held", "held by the session"),
       ("late", "late: the session doesn't hold it"), ("free", "no session"))


def lane(row, hart, sign=""):
    """A hart's cell: how it stands to the session, and what it does, if anything."""
    kinds = ["lane", row.standing(hart)]
    if row.master is not None and hart not in row.late:
        kinds += {"O": ["again" if row.again else "opens"], "E": ["closes"]}.get(row.entry.kind, [])
    return f'<td class="{" ".join(kinds)}">{f"<b>{sign}</b>" if sign else ""}</td>'


def cells(number, lanes, planted, words, lines, name=""):
    text = f"<pre>{html.escape(chr(10).join(lines))}</pre>" if lines else ""
    return (f'<tr{name}><td class="number">{number}</td>{"".join(lanes)}<td class="code">{planted}</td>'
            f'<td>{words}</td><td>{text}</td></tr>')


def entry_row(row, harts, lines):
    lanes = [lane(row, it, row.entry.kind if it == row.actor() else "") for it in range(harts)]
    words = html.escape(row.words)
    if row.objection:
        words += f'; <span class="bad">not legal: {html.escape(row.objection)}</span>'
    name = f' id="entry-{row.index}"' if row.entry.kind == "O" else ""
    return cells(row.index, lanes, row.planted_words(), words, lines, name)


def short(number):
    return f"{number // 1000}k" if number >= 1000 else str(number or "")


def stretch_row(stretch, harts):
    """Many steps as one row."""
    first, last, counts = stretch[0], stretch[-1], Counter(it.entry.hart for it in stretch)
    lanes = [lane(first, it, short(counts[it])) for it in range(harts)]
    words = f"{len(stretch):,} steps, up to {last.words.rpartition(': ')[2]}"
    return cells(f"{first.index}–{last.index}", lanes, first.planted_words(), words, [])


def entry_rows(journal, beside):
    """A row for each entry, and one for a long stretch of steps."""
    stretch = []

    def stretched():
        if len(stretch) > LONGEST_SHOWN:
            yield stretch_row(stretch, journal.harts)
        else:
            yield from (entry_row(it, journal.harts, []) for it in stretch)
        stretch.clear()

    for row in journal.rows():
        if row.entry.kind == "S" and not row.in_pass and not row.objection and row.index not in beside:
            stretch.append(row)
        else:
            yield from stretched()
            yield entry_row(row, journal.harts, beside.get(row.index, []))
    yield from stretched()
    if not journal.has_ended():
        yield cells("", ["<td></td>"] * journal.harts, "", NO_ENDING, beside.get(len(journal.entries), []))


def session_rows(journal, banners):
    """A row for each opening: its hart, its reason where a transcript tells it, its late harts."""
    for row in journal.rows():
        if row.entry.kind == "O":
            reason, address = banners.get(row.index, ("", ""))
            late = ", ".join(map(str, row.late)) or "none"
            told = f'<td>{html.escape(reason)}</td><td class="code">{address}</td>' if banners else ""
            yield (f'<tr><td><a href="#entry-{row.index}">entry {row.index}</a></td><td>hart {row.master}'
                   f'{", again" if row.again else ""}</td>{told}<td>{late}</td></tr>')


def head(title, harts):
    wide = "4.5rem" if harts <= 4 else "3rem" if harts <= 8 else "2.4rem"
    yield '<!DOCTYPE html>\n<html lang="en">\n<head>\n<meta charset="utf-8">'
    yield f'<title>{html.escape(title)}</title>\n<meta name="viewport" content="width=device-width">'
    yield f'<style>{STYLE}:root {{ --wide: {wide}; }}\n</style>\n</head>\n<body>'


def page(summary, journal, beside, banners):
    """The page's lines."""
    name, _, rest = summary.partition(": ")
    yield from head(f"Journal {name}", journal.harts)
    yield f"<h1>Journal {html.escape(name)}</h1>\n<p>{html.escape(rest)}.</p>"
    yield ('<p class="soft">Drawn from the journal alone, by an unproved script: that the journal is legal is shown by a replay, '
           "not by this page.</p>")
    told = "<th>Due to</th><th>At</th>" if banners else ""
    yield f'<h2>Sessions</h2>\n<table class="sessions">\n<tr><th>Opened by</th><th>Master</th>{told}<th>Late harts</th></tr>'
    yield from session_rows(journal, banners)
    yield '</table>\n<h2>Entries</h2>\n<ul class="key">'
    yield from (f'<li><i class="{kind}"></i>{words}</li>' for kind, words in KEY)
    yield ("</ul>\n<p class=\"soft\">The letter in a hart's lane begins the entry's line; a number counts steps. "
           "What is planted is so after the entry.</p>")
    names = "".join(f'<th class="lane" scope="col">{"hart " if journal.harts <= 4 else ""}{it}</th>' for it in range(journal.harts))
    transcript = '<th scope="col">Transcript</th>' if beside else "<th></th>"
    yield (f'<table class="entries">\n<thead><tr><th scope="col">Entry</th>{names}<th scope="col">Planted</th>'
           f'<th scope="col">What happens</th>{transcript}</tr></thead>\n<tbody>')
    yield from entry_rows(journal, beside)
    yield "</tbody>\n</table>\n</body>\n</html>"
