"""The page that ./tour leaves: each command with its input, what it prints, and the picture of the run; then the
scenes of docs/SCENES.md, with the pictures that are stored beside them.

tools/pictures/look_at_tour.py looks at it in a browser.
"""
import html
import os
import re

from programs import TOP

SCENES = os.path.join(TOP, "docs", "SCENES.md")
# A picture of that page, by itself in its line; a heading.
IMAGE, HEADING = re.compile(r"!\[[^\]]*\]\(\.\./(\S+\.svg)\)"), re.compile(r"(#+) (.*)")

HEAD_LINES = 12
# A text of more lines is folded.
MOST_LINES = 24
# What is said of the stored runs that README.md doesn't show.
TOLD = {
    "mu replay < examples/change-of-leaders.job":
        "Replica 0 commits the first command and stops. Replica 1 is elected and commits the second.",
    "mu check < examples/change-of-leaders.trace":
        "The events of that replay: each was allowed, and found what it had to find.",
    "mu check < examples/gone-and-outrun.trace":
        "Replica 2 pauses and the ring fills. Replica 0 commits the mark that replica 2 is gone, and goes on; when "
        "replica 2 comes back, what it lacks is written over: it is outrun.",
    "mu check < examples/order-book.trace": "The events of the replay of examples/order-book.job.",
    "mu check < examples/put-and-get.trace": "The events of the first replay above.",
    "mu replay < examples/stop-and-pause.job":
        "A script stops replica 0 for good after 200 steps, and passes replica 1 over for a while. Both commands are "
        "in every log all the same.",
    "mu check < examples/stop-and-pause.trace": "The events of that replay.",
}
INTRO = """
<p>Mu is a replication engine: replicas of a key-value store keep one log of commands each, and a leader writes the
logs of the others itself, a word of their memory at a time. It is proved that no position of the log is ever
decided twice, whatever the interleaving, and whichever replicas stop or pause. A <em>job</em> says how many replicas there are and
what clients send; a <em>trace</em> is a job with each step of a run.</p>
<p>In a picture time goes down and each replica has a lane, with its region (the memory that others write) to the
right. A band in a lane is a leadership, a region's bar has the colour of the replica that may write it, a thin arrow
is a write into another's log, and a thick one the write that commits; the notes at the right tell what came of it.
Open a picture for the tooltips of its steps; <code>docs/FORMATS.md</code> explains each mark.</p>
"""
STYLE = """
:root { color-scheme: light dark; --line: #ccc; --back: #fff; --text: #222; --quiet: #666; --link: #0645ad }
@media (prefers-color-scheme: dark) {
  :root { --line: #444; --back: #181a1b; --text: #ddd; --quiet: #999; --link: #8ab4f8 }
}
body { font: 15px/1.45 sans-serif; margin: 2em auto; max-width: 1400px; padding: 0 1em;
       background: var(--back); color: var(--text) }
a { color: var(--link) }
body > p { max-width: 60em }
pre { font: 12px/1.35 monospace; white-space: pre-wrap; overflow-wrap: anywhere; margin: 0 }
code { overflow-wrap: anywhere }
section { border-top: 1px solid var(--line); margin-top: 2.5em }
h2 { font-size: 17px; margin: 1em 0 0 } p { margin: .3em 0 .7em } h3 { font-size: 13px; margin: 0 0 .4em }
.texts { display: grid; grid-template-columns: minmax(0, 1fr) minmax(0, 1fr); gap: 1em }
.texts > div, figure { border: 1px solid var(--line); padding: .6em; margin: 0 0 1em }
@media (max-width: 900px) { .texts { grid-template-columns: minmax(0, 1fr); gap: 0 } body { margin: 1em auto } }
figure { overflow-x: auto }
img { display: block; background: #fff }
@media (prefers-color-scheme: dark) { img { filter: invert(.89) hue-rotate(180deg) } }
figcaption, summary { font-size: 13px; color: var(--quiet); margin-top: .4em }
nav ol { columns: 29em; column-gap: 2em; padding-left: 2em }
nav li { margin: .15em 0; break-inside: avoid; overflow-wrap: anywhere }
"""


def preformatted(given):
    """A text; one of many lines is folded behind its first ones."""
    lines = given.decode(errors="replace").splitlines(keepends=True)
    whole = f"<pre>{html.escape(''.join(lines))}</pre>"
    if len(lines) <= MOST_LINES:
        return whole
    return (f"<pre>{html.escape(''.join(lines[:HEAD_LINES]))}</pre>"
            f"<details><summary>all {len(lines):,} lines</summary>{whole}</details>")


def alternative(trace, picture):
    """What a picture says, for who doesn't see it: its heading and its notes."""
    texts = re.findall(r"<text([^>]*)>([^<]*)</text>", picture.decode())
    notes = [text for kind, text in texts if re.search(r"class='t[ ']", kind)]
    # The texts of the picture are escaped already.
    return f"The picture of {trace}: {texts[0][1]}. {'; '.join(notes) or 'It has no notes'}."


class Pictures:
    """The pictures of the page: each stands once, and is named where it would stand again."""

    def __init__(self, drawn):
        self.drawn, self.shown = drawn, {}

    def of(self, trace, place):
        """The picture of a trace, or what stands in its place."""
        if trace is None:
            return ""
        picture = self.drawn[trace].output
        if not picture.startswith(b"<svg"):
            return f"<figure>./mu_draw says: {preformatted(picture)}</figure>\n"
        if trace in self.shown:
            return f"<p>The picture of {trace} stands <a href='#{self.shown[trace]}'>above</a>.</p>\n"
        self.shown[trace] = place
        return figure(f"{trace}.svg", trace, picture, f"{trace}, as ./mu_draw draws it")


def figure(name, of, picture, caption):
    """A picture, as large as it is, since its words are small: a narrow window scrolls it."""
    width, height = re.search(rb"width='(\d+)' height='(\d+)'", picture).groups()
    return (f"<figure><a href='{name}'><img src='{name}' width='{width.decode()}' height='{height.decode()}' "
            f"alt='{alternative(of, picture)}'></a><figcaption>{html.escape(caption)}</figcaption></figure>\n")


def marked_up(text):
    """A paragraph of a page, with its code, emphasis and links."""
    text = html.escape(text, quote=False)
    text = re.sub(r"\[([^\]]*)\]\([^)]*\)", r"\1", text)
    text = re.sub(r"`([^`]*)`", r"<code>\1</code>", text)
    text = re.sub(r"\*\*([^*]*)\*\*", r"<strong>\1</strong>", text)
    return re.sub(r"\*([^*]*)\*", r"<em>\1</em>", text)


def scenes():
    """The scenes: the entries of their titles, what stands in the page, and the stored pictures by name."""
    with open(SCENES, encoding="utf-8") as text:
        blocks = text.read().strip().split("\n\n")[1:]
    entries, parts, pictures = [], [], {}
    for block in blocks:
        image, heading = IMAGE.fullmatch(block), HEADING.fullmatch(block)
        if image:
            name = os.path.basename(image[1])
            with open(os.path.join(TOP, image[1]), "rb") as picture:
                pictures[name] = picture.read()
            parts.append(figure(name, image[1], pictures[name], image[1]))
        elif heading:
            place = f"scene-{len(entries) + 1}"
            entries.append(f"<li><a href='#{place}'>{marked_up(heading[2])}</a></li>\n")
            parts.append(f"</section>\n<section id='{place}'>\n<h2>{marked_up(heading[2])}</h2>\n")
        else:
            parts.append(f"<p>{marked_up(block)}</p>\n")
    return entries, f"<section>\n{''.join(parts)}</section>\n", pictures


def sentence(told):
    """What is said of a command, with a capital and a full stop."""
    return told[:1].upper() + told[1:] + ("" if told.endswith(".") else ".")


def section(number, stop, answer, picture):
    """A command's part of the page: its input, what it printed, and the picture."""
    source = f"examples/{stop.example}" if stop.example else "no input"
    given = preformatted(stop.case.given) if stop.example else ""
    return (f"<section id='stop-{number}'>\n<h2><code>{html.escape(stop.command())}</code></h2>\n"
            f"<p>{html.escape(sentence(stop.told))}</p>\n<div class='texts'>\n"
            f"<div><h3>{source}</h3>{given}</div>\n"
            f"<div><h3>what it prints, with status {answer.status}</h3>{preformatted(answer.output)}</div>\n</div>\n"
            f"{picture}</section>\n")


def page(seen, answers, drawn, trace_of, built):
    """The whole page, and the stored pictures that it shows besides those that are drawn."""
    pictures, sections, entries = Pictures(drawn), [], []
    for number, (stop, answer) in enumerate(zip(seen, answers), 1):
        sections.append(section(number, stop, answer, pictures.of(trace_of(stop.example), f"stop-{number}")))
        entries.append(f"<li><a href='#stop-{number}'><code>{html.escape(stop.command())}</code></a></li>\n")
    titles, told, stored = scenes()
    whole = ("<!doctype html>\n<html lang='en'>\n<meta charset='utf-8'>\n"
            "<meta name='viewport' content='width=device-width, initial-scale=1'>\n<title>Mu: a tour</title>\n"
            f"<style>{STYLE}</style>\n<h1>Mu: a tour</h1>\n{INTRO}"
            f"<p>These are the commands of README.md and the other stored runs of examples/, run by {built}. "
            "The picture beside a job is that of its replay.</p>\n"
            f"<nav><ol>\n{''.join(entries)}</ol></nav>\n"
            "<p>And these are the scenes of docs/SCENES.md.</p>\n"
            f"<nav><ol>\n{''.join(titles)}</ol></nav>\n{''.join(sections)}<h1>Scenes</h1>\n{told}</html>\n")
    return whole, stored
