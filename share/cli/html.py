"""A text with its looks as a page, and with what is said of it in the margin. What people wrote is text there, whatever it is."""
import html
from collections import Counter, defaultdict
from collections.abc import Iterator, Sequence
from itertools import accumulate
from typing import NamedTuple

from share.editors.terminal.keys import CONTROL, DOT
from share.editors.threads import OPEN, SUGGESTION, TAKEN_WORDS, speaker
from share.text.line import Line
from share.text.looks import COLOURS, Run, told
from share.text.rope import readable, swapped

TEMPLATE = """<!doctype html>
<html lang="en">
<head>
<meta charset="utf-8">
<meta http-equiv="Content-Security-Policy" content="default-src 'none'; style-src 'unsafe-inline'">
<title>{title}</title>
<style>pre {{ white-space: pre-wrap; overflow-wrap: anywhere }}{style}</style>
</head>
<body>
<pre>{body}</pre>
</body>
</html>
"""
# Where a page has a margin, and what is in it.
PAGE_MARGIN = """
body { margin-right: 21em }
.said { float: right; clear: right; width: 18em; margin: 0 -20em .5em 0; padding: .2em .5em; border-left: .2em solid #ccaa44;
  font: small sans-serif; white-space: pre-wrap; unicode-bidi: isolate }
mark { background: #fff0b0 } del { background: #ffe0e0 } ins { background: #e0ffe0 }"""
TAGS = "mark", "del"
_SAID = '<span class="said">{}</span>'


class InMargin(NamedTuple):
    """What is said of a stretch of a text, which is in bytes."""

    begin: int
    end: int
    thread: Line


def page(title: str, text: bytes, runs: Sequence[Run], said: Sequence[InMargin] = ()) -> str:
    """The page of a text."""
    # A line end right after the tag would be dropped.
    body = "\n" + "".join(_text_with_margin(text, runs, said))
    return TEMPLATE.format(title=html.escape(title), body=body, style=PAGE_MARGIN if said else "")


def _text_with_margin(text: bytes, runs: Sequence[Run], said: Sequence[InMargin]) -> Iterator[str]:
    """The text in stretches of equal looks, of which the same is said, and after each what is said of what ends there."""
    ends = [*accumulate((run.length for run in runs), initial=0)]
    # How many more say something of it from a place on, by the tag that shows that; and what ends there.
    steps, after = defaultdict[int, Counter[str]](Counter), defaultdict[int, list[Line]](list)
    for one in said:
        tag = "del" if one.thread["kind"] == SUGGESTION else "mark"
        steps[one.begin].update({tag: 1})
        steps[one.end].update({tag: -1})
        after[one.end].append(one.thread)
    now, number = Counter[str](), 0
    places = sorted({0, *ends, *steps, len(text)})
    for begin, end in zip(places, [*places[1:], len(text)]):
        yield from map(_in_the_margin, after[begin])
        now.update(steps[begin])
        while number + 1 < len(runs) and ends[number + 1] <= begin:
            number += 1
        if begin < end:
            yield _dressed(_escaped(text[begin:end]), _style(runs[number]) if runs else "", [tag for tag in TAGS if now[tag]])


def _dressed(words: str, style: str, tags: Sequence[str]) -> str:
    if style:
        words = f'<span style="{style}">{words}</span>'
    for tag in tags:
        words = f"<{tag}>{words}</{tag}>"
    return words


def _in_the_margin(thread: Line) -> str:
    """What is said, and what is to be there."""
    state = "" if thread["state"] == OPEN else f" ({thread['state']})"
    lines = [f"<b>{_safe_html(speaker(thread))}</b>{state}: {_safe_html(thread.get('body', ''))}"]
    lines += [f"<b>{_safe_html(speaker(reply))}</b>: {_safe_html(TAKEN_WORDS if reply.get('taken') else reply.get('body', ''))}"
              for reply in thread.get("replies", [])]
    new = f"<ins>{_safe_html(thread['new'])}</ins>" if thread.get("new") else ""
    return new + _SAID.format("\n".join(lines))


def _escaped(data: bytes) -> str:
    return _safe_html(readable(swapped(data)))


def _safe_html(text: str) -> str:
    return html.escape(CONTROL.sub(lambda found: found[0] if found[0] in "\n\t" else DOT, text))


def _style(run: Run) -> str:
    """The looks of a run, as far as they differ from plain ones."""
    looks = told(run.looks)
    styles = ["font-weight:bold"] if "bold" in looks else []
    if "italic" in looks:
        styles.append("font-style:italic")
    if "colour" in looks:
        styles.append(f"color:{COLOURS[run.colour]}")
    if "offset" in looks:
        styles.append(f"vertical-align:{run.offset}px")
    return ";".join(styles)
