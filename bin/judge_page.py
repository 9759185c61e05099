"""The page of bin/judge: one table of all programs, with what differs."""
from __future__ import annotations

import dataclasses
import html

BEGINNING = "<!doctype html>\n<!-- made by bin/judge -->\n"
STYLE = """
:root { color-scheme: light dark; --edge: #bbb; --good: #18794e; --bad: #c22; }
@media (prefers-color-scheme: dark) { :root { --edge: #555; --good: #4cc38a; --bad: #ff8080; } }
body { margin: 1rem auto; padding: 0 1rem; max-width: 72rem; font: 1rem/1.4 system-ui, sans-serif; }
table { border-collapse: collapse; width: 100%; }
th, td { border: 1px solid var(--edge); padding: .3rem .5rem; text-align: left; vertical-align: top; overflow-wrap: anywhere; }
pre { margin: .25rem 0; white-space: pre-wrap; overflow-wrap: anywhere; font: .9rem/1.3 ui-monospace, monospace; }
.passed { color: var(--good); } .other { color: var(--bad); font-weight: 600; }
.pictures { display: flex; gap: 2rem; } .pictures pre { line-height: 1; }
"""


@dataclasses.dataclass(frozen=True)
class Run:
    """A run: its script, what came of it, and what is shown of the first difference."""

    name: str
    verdict: str
    says: str
    explained: list[str]
    wanted: str
    came: str
    sentences: list[str]
    wanted_picture: list[str]
    came_picture: list[str]
    has_line: bool


@dataclasses.dataclass(frozen=True)
class Row:
    """A program."""

    name: str
    verdict: str
    lacks: str
    passed: str
    runs: list[Run]


def text(what: str) -> str:
    return html.escape(what)


def verdict(word: str) -> str:
    return f'<span class="{"passed" if word == "passed" else "other"}">{text(word)}</span>'


def lines(rows: list[str]) -> str:
    return f"<pre>{text(chr(10).join(rows))}</pre>" if rows else ""


def run(it: Run) -> str:
    """Gives what is told of a run."""
    told = f"<p>{text(it.name)}: {verdict(it.verdict)}{': ' if it.says else ''}{text(it.says)}</p>" + lines(it.explained)
    if it.has_line:
        told += lines([f"wanted  {it.wanted}", f"came    {it.came}", *it.sentences])
    if it.wanted_picture or it.came_picture:
        told += '<div class="pictures">' + "".join(f"<div>{name}{lines(rows)}</div>" for name, rows in (("wanted", it.wanted_picture), ("came", it.came_picture)) if rows) + "</div>"
    return told


def page(rows: list[Row], verdicts: tuple[str, ...]) -> bytes:
    """Gives the page. It has no script, and fetches nothing."""
    counts = ", ".join(f"{sum(it.verdict == word for it in rows)} {word}" for word in verdicts if any(it.verdict == word for it in rows))
    body = "".join(
        f"<tr><td>{text(it.name)}</td><td>{verdict(it.verdict)}</td><td>{it.passed}</td><td>{text(it.lacks)}{''.join(run(one) for one in it.runs if one.verdict != 'passed')}</td></tr>\n" for it in rows
    )
    return (
        BEGINNING + '<html lang="en">\n<head>\n<meta charset="utf-8">\n<meta http-equiv="Content-Security-Policy" content="default-src \'none\'; style-src \'unsafe-inline\'">\n'
        '<meta name="viewport" content="width=device-width, initial-scale=1">\n'
        f"<title>Programs judged</title>\n<style>{STYLE}</style>\n</head>\n<body>\n<h1>Programs judged</h1>\n<p>{len(rows)} programs: {text(counts)}</p>\n"
        f"<table>\n<thead><tr><th>Program</th><th>Verdict</th><th>Runs as wanted</th><th>What differs</th></tr></thead>\n<tbody>\n{body}</tbody>\n</table>\n</body>\n</html>\n"
    ).encode("utf-8", "backslashreplace")
