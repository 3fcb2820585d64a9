"""The page: one HTML text without outside files, which reads the same without its script."""
import html

STYLE = """
:root{--ink:#2d3440;--quiet:#6b7280;--line:#dfe3e8;--paper:#fbfbfc;--new:#1f7a3f;--old:#b5533c;--mark:#fff3d6}
*{box-sizing:border-box}body{margin:0;color:var(--ink);background:#fff;font:14px/1.45 'DejaVu Sans',Helvetica,Arial,sans-serif}
header{padding:18px 24px 12px;border-bottom:1px solid var(--line)}h1{font-size:20px;margin:0 0 4px}header p{margin:2px 0;color:var(--quiet);max-width:110ch}
main{display:grid;grid-template-columns:minmax(430px,1fr) minmax(0,1.25fr);gap:18px;padding:14px 24px}
@media(max-width:1000px){main{grid-template-columns:1fr}aside{position:static!important;max-height:none!important}}
aside{position:sticky;top:0;align-self:start;max-height:100vh;overflow:auto}aside svg{max-width:100%;height:auto}
code,.line summary,.state td,.next{font-family:'DejaVu Sans Mono',Consolas,monospace;font-size:12.5px}
.line{border:1px solid var(--line);border-radius:6px;margin:0 0 6px;background:var(--paper)}.line.on{border-color:#d9a441;background:var(--mark)}
.line summary{cursor:pointer;padding:5px 8px;overflow-wrap:anywhere}.line .number{color:var(--quiet);display:inline-block;min-width:3.2em}
.told{color:var(--new);display:block;padding-left:4.4em}.refused>summary .told{color:var(--old);font-weight:bold}.inside{padding:2px 10px 8px}
table{border-collapse:collapse;width:100%;margin:4px 0}td,th{border-top:1px solid var(--line);padding:2px 6px;text-align:left;vertical-align:top;overflow-wrap:anywhere;font-size:12.5px}
th{font-weight:normal;color:var(--quiet);font-size:11.5px}.owner{white-space:nowrap;color:var(--quiet)}.changes td:nth-child(2),.changes th:nth-child(2){min-width:84px}.changes td:nth-child(4){min-width:96px}del{color:var(--old);text-decoration:none;opacity:.85}ins{color:var(--new);text-decoration:none}
.next{color:#44506a}.next b{font-weight:normal;color:var(--quiet)}.why{background:#fbe9e4;border-left:4px solid var(--old);padding:6px 10px;margin:4px 0}
.why pre{margin:4px 0 0;overflow-x:auto}h2{font-size:15px;margin:14px 0 4px}.quiet{color:var(--quiet);font-size:12px}#marker{pointer-events:none}
"""
SCRIPT = """
const drawing=document.querySelector('aside svg'),lines=[...document.querySelectorAll('.line')];
function mark(line){lines.forEach(l=>l.classList.toggle('on',l===line));
 const m=document.getElementById('marker');if(!m||!drawing)return;m.setAttribute('x',line.dataset.x);m.setAttribute('visibility','visible');
 const a=document.querySelector('aside'),s=drawing.getBoundingClientRect().width/drawing.viewBox.baseVal.width;
 a.scrollLeft=line.dataset.x*s-a.clientWidth/2;}
lines.forEach(l=>l.addEventListener('mouseenter',()=>mark(l)));
lines.forEach(l=>l.addEventListener('toggle',()=>{if(l.open)mark(l)}));
if(location.hash){const l=document.querySelector(location.hash);if(l){l.open=true;mark(l);l.scrollIntoView()}}
else if(lines.length){mark(document.querySelector('.refused')||lines[lines.length-1])}
"""
# Up to how many lines stand open at first.
OPEN = 12


def text(value):
    return html.escape(str(value), quote=True)


def cell(value, tag):
    return f"<{tag}>{text(value)}</{tag}>" if value is not None else '<span class="quiet">nothing</span>'


def changes_of(step):
    """What a line changed: who, what, before and now."""
    if not step.changes:
        return '<p class="quiet">It changed nothing.</p>'
    rows = "".join(f'<tr><td class="owner">{text(owner)}</td><td>{text(name)}</td><td>{cell(before, "del")}</td><td>{cell(after, "ins")}</td></tr>'
                   for owner, name, before, after in step.changes)
    return f'<table class="state changes"><tr><th>who</th><th>what</th><th>before</th><th>now</th></tr>{rows}</table>'


def next_of(step):
    if not step.next:
        return ""
    groups = "".join(f"<div><b>{text(name)}:</b> {text(' · '.join(lines))}</div>" for name, lines in step.next.items())
    return f'<details><summary class="quiet">what can happen next</summary><div class="next">{groups}</div></details>'


def bar(x, y, width, start, end):
    return f'<rect x="{x:.1f}" y="{y}" width="{width:.1f}" height="12" fill="#2f8f4e"><title>offsets {start} to {end}</title></rect>'


def ranges_of(step):
    """The ranges of an answer as bars over each partition's offsets."""
    if step.ranges is None:
        return ""
    ranges, missing, lengths = step.ranges
    width, parts = 300, []
    for partition, length in enumerate(lengths):
        y, scale = 4 + 20 * partition, width / max(length, 1)
        bars = "".join(bar(70 + start * scale, y, max((end - start) * scale, 1), start, end) for p, start, end in ranges if p == partition)
        told = ", ".join(f"{start} to {end}" for p, start, end in ranges if p == partition) or "nothing"
        lacks = ", ".join("all of it" if q is None else f"{p}/{q}" for p, q in missing if p == partition)
        parts.append(f'<text x="0" y="{y + 10}" font-size="11">partition {partition}</text><rect x="70" y="{y}" width="{width}" height="12" fill="#e5e9ee"/>{bars}'
                     f'<text x="{width + 78}" y="{y + 10}" font-size="11">{text(told)} of {length}{text("; missing " + lacks) if lacks else ""}</text>')
    return f'<svg width="{width + 330}" height="{20 * len(lengths) + 6}" role="img" aria-label="ranges of the answer">{"".join(parts)}</svg>'


def why_of(line, why, behind=0):
    """Why a line is refused, with a mark below the part that it is about; a query's column counts behind its first word."""
    if why is None:
        return ""
    said = "".join(f"<div>{text(sentence)}.</div>" for sentence in why.sentences)
    if why.column is None:
        return f'<div class="why">{said}</div>'
    column = why.column + behind
    mark = " " * (column - 1) + "^" * min(why.length, max(len(line) - column + 1, 1))
    return f'<div class="why">{said}<div>Column {column} of the line:</div><pre>{text(line)}\n{mark}</pre></div>'


def line_of(step, x, is_open):
    behind = len(step.text.partition(" ")[0]) + 1 if step.told.startswith("noquery ") else 0
    inside = why_of(step.text, step.why, behind) + ranges_of(step) + changes_of(step) + next_of(step)
    kind = "line refused" if step.refused else "line"
    return (f'<details class="{kind}" id="line-{step.number}" data-x="{x:.1f}"{" open" if is_open else ""}><summary><span class="number">{step.number}</span>{text(step.text)}'
            f'<span class="told">{text(step.told)}</span></summary><div class="inside">{inside}</div></details>')


def state_of(state, title):
    rows = "".join(f'<tr><td class="owner">{text(owner)}</td><td>{text(name)}</td><td>{text(value)}</td></tr>' for owner, named in state.items() for name, value in named.items())
    return f'<details><summary>{text(title)}</summary><table class="state">{rows}</table></details>'


def header_of(told):
    setup = told.setup
    counts = ", ".join(f"{count} {name}{'' if count == 1 else 's'}" for count, name in
                       ((setup.servers, "server"), (setup.controllers, "controller"), (setup.partitions, "partition")))
    columns = ", ".join(f"{column.name} {column.kind}" for column in setup.columns)
    return (f"{counts}; replication {setup.replication}; segments of {setup.rows} rows or {setup.millis} ms; columns {columns}"
            + (f"; retention {setup.retention} ms" if setup.retention is not None else ""))


def refused_header(told, lines):
    """Why the header isn't taken."""
    line = lines[told.line - 1] if told.line and told.line <= len(lines) else ""
    rows = "".join(f"<tr><td>{fault.number or '-'}</td><td>{text(fault.where or '-')}</td><td>{text(fault.why)}</td></tr>" for fault in told.faults)
    return (f'<div class="why"><div><b>{text(told.said)}</b></div><pre>{text(line)}</pre><table><tr><th>refusal</th><th>at the key</th><th>why</th></tr>{rows}</table>'
            "<div>Of several refusals the least number counts.</div></div>")


def page(title, told, drawing, ran, lines):
    """The whole page. `drawing` is the picture with the place of each line, or none; `ran` says who else reported what."""
    body = [f"<h1>{text(title)}</h1>", f"<p>{text(ran)}</p>"]
    if told.setup is None:
        return whole(title, body, refused_header(told, lines))
    body.append(f"<p>{text(header_of(told))}</p>")
    if told.left_out:
        body.append(f"<p>What the first {told.left_out} lines changed isn't told.</p>")
    svg, x = drawing if drawing else ("", lambda at: 0)
    opened = len(told.steps) <= OPEN
    listed = "".join(line_of(step, x(at), opened or step.refused or at == len(told.steps) - 1) for at, step in enumerate(told.steps))
    end = f'<p class="quiet">{text(told.said)}</p>' if told.said else '<p class="quiet">Every line ran.</p>'
    left = f'<section>{state_of(told.begins, "the first state")}<h2>Lines</h2>{listed}{end}{state_of(told.ends, "the state behind the last line, whole")}</section>'
    return whole(title, body, f"<main>{left}<aside>{svg}</aside></main>")


def whole(title, head, body):
    return (f'<!DOCTYPE html>\n<html lang="en"><head><meta charset="utf-8"><meta name="viewport" content="width=device-width"><title>{text(title)}</title><style>{STYLE}</style></head>'
            f'<body><header>{"".join(head)}</header>{body}<script>{SCRIPT}</script></body></html>\n')
