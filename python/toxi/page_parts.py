"""What the pages of sweeps, searches and campaigns share. A page needs no other file and no script, and is XML too."""
from html import escape
from typing import Iterable, List

from .outcomes import Kind
from .sweep_rows import NOT_REACHED

# What differs by colour differs by height or by stripes too.
STYLE = """
:root{color-scheme:light dark;--paper:#fff;--ink:#1f2328;--dim:#59636e;--line:#d1d9e0;--ground:#eff2f5;
--wrong:#c24e00;--hang:#1f2328;--failed:#9b2f7f;--allowed:#56b4e9;--right:#0072b2;--missed:#8c959f}
body{margin:0;background:var(--paper);color:var(--ink);font:16px/1.5 system-ui,-apple-system,"Segoe UI",Roboto,Helvetica,Arial,sans-serif}
main{max-width:1100px;margin:0 auto;padding:16px}
h1{font-size:24px;line-height:1.25;margin:0 0 16px}
h2{font-size:20px;line-height:1.25;margin:32px 0 8px;overflow-wrap:anywhere}
p{margin:0}
ul{list-style:none;margin:16px 0;padding:0;display:flex;flex-wrap:wrap;gap:4px 20px;font-size:14px}
li{display:flex;align-items:center;gap:6px}
.key{display:inline-block;position:relative;width:24px;height:20px;background:var(--ground)}
h3{font-size:14px;font-weight:600;margin:12px 0 2px}
.strip{position:relative;height:28px;background:var(--ground);overflow:hidden}
.strip i,.key i{position:absolute;bottom:0;min-width:2px}
.key i{left:0;width:100%}
.wrong{background:var(--wrong);height:100%}
.hang{background:repeating-linear-gradient(90deg,var(--hang) 0 3px,var(--paper) 3px 5px);height:100%}
.failed{background:repeating-linear-gradient(0deg,var(--failed) 0 4px,var(--paper) 4px 6px);height:100%}
.allowed{background:var(--allowed);height:60%}
.right{background:var(--right);height:30%}
.missed{background:repeating-linear-gradient(135deg,var(--missed) 0 2px,transparent 2px 6px);height:30%}
.ticks{position:relative;height:6px}
.ticks i{position:absolute;top:0;width:1px;height:100%;background:var(--dim)}
.said{color:var(--dim);font-size:13px;overflow-wrap:anywhere}
.wide{overflow-x:auto}
table{border-collapse:collapse;font-size:14px}
th,td{border-bottom:1px solid var(--line);padding:4px 10px;text-align:left;vertical-align:top;white-space:nowrap}
td.detail{white-space:normal;overflow-wrap:anywhere;min-width:200px}
.number{font-variant-numeric:tabular-nums;text-align:right}
tr.fails th{border-left:4px solid var(--wrong)}
pre{overflow-x:auto;font-size:13px;background:var(--ground);padding:8px}
td .strip{height:20px;min-width:64px}
@media(prefers-color-scheme:dark){
:root{--paper:#0d1117;--ink:#f0f6fc;--dim:#9198a1;--line:#3d444d;--ground:#21262d;
--wrong:#ff8c42;--hang:#f0f6fc;--failed:#d68bc1;--allowed:#2f81b7;--right:#9fd3f2;--missed:#656c76}
}
"""
# The class of what wasn't reached.
MISSED = "missed"
CLASSES = {Kind.WRONG: "wrong", Kind.HANG: "hang", Kind.FAILED: "failed", Kind.ALLOWED: "allowed", Kind.RIGHT: "right"}
KEYS = {
    "wrong": "wrong answer",
    "hang": "hang",
    "failed": "an exception or status that isn't allowed",
    "allowed": "an allowed exception or status",
    "right": "right",
    MISSED: NOT_REACHED,
}


def document(title: str, body: Iterable[str]) -> str:
    """A page with a title, of the lines of its body."""
    head = f'<meta charset="utf-8"/>\n<meta name="viewport" content="width=device-width, initial-scale=1"/>\n<title>{escape(title)}</title>'
    parts = ["<!DOCTYPE html>", '<html lang="en">', f"<head>\n{head}\n<style>{STYLE}</style>\n</head>", "<body>", "<main>", f"<h1>{escape(title)}</h1>"]
    return "\n".join([*parts, *body, "</main>", "</body>", "</html>", ""])


def key(classes: Iterable[str]) -> List[str]:
    """What the colours that the page has mean. The ground of a strip was not run."""
    used = set(classes)
    items = [f'<li><span class="key"><i class="{name}"></i></span>{escape(text)}</li>' for name, text in KEYS.items() if name in used]
    return ["<ul>", *items, '<li><span class="key"></span>not run</li>', "</ul>"]


def table(columns: Iterable[str], rows: Iterable[str]) -> List[str]:
    """A table of some columns, whose rows are written already."""
    heads = "".join(f'<th scope="col">{escape(column)}</th>' for column in columns)
    return ['<div class="wide">', "<table>", f"<thead><tr>{heads}</tr></thead>", "<tbody>", *rows, "</tbody>", "</table>", "</div>"]
