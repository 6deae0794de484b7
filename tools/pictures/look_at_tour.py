#!/usr/bin/env python3
"""Looks at the page that ./tour leaves, in headless Chromium, as wide as a screen and as a phone, light and dark.

    tools/pictures/look_at_tour.py [PAGE]      out/tour/index.html; the last line is `N pictures, M wrong`

A picture is wrong if it isn't loaded, if it is made smaller or has lost its shape, if it is cut off by something that
doesn't scroll, if it is white in a dark page, if it isn't a link to itself, or if it has no alternative text. A page is
wrong if it is wider than the window, if its columns of text are narrow, if two entries of its lists overlap, or if
words are too small. Without Chromium only links and alternative texts are looked at, which is said. The status is 1 if
something is wrong.
"""
import html
import os
import re
import shutil
import subprocess
import sys
import tempfile

import folders
import programs
from beginning import begin
from programs import TOP

WIDTHS = (1280, 768, 390)
BROWSERS = ("chromium", "chromium-browser", "google-chrome")
SECONDS = 120
# Fewer letters tell nothing of a picture.
LEAST_LETTERS = 40
# Columns of texts may not be narrower, nor words smaller, in pixels.
LEAST_COLUMN, LEAST_FONT = 280, 10
# How much room the number of an entry takes at its left.
MARKER = 32
# Says what is wrong with the page, a line each below its width, once all pictures are loaded.
LOOK = """
<script>
addEventListener("load", () => {
  const wrong = [], room = document.documentElement.clientWidth;
  const say = (what, text) => wrong.push(what + ": " + text);
  if (document.documentElement.scrollWidth > room)
    say("the page", "it is " + document.documentElement.scrollWidth + " wide");
  for (const part of document.querySelectorAll(".texts > div"))
    if (part.clientWidth < LEAST_COLUMN) say("a column", "it is only " + part.clientWidth + " wide");
  const texts = [...document.querySelectorAll("p, li, pre, code, h1, h2, h3, figcaption, summary")];
  for (const it of texts)
    if (parseFloat(getComputedStyle(it).fontSize) < LEAST_FONT) say("a text", "it is too small: " + it.textContent);
  const entries = [...document.querySelectorAll("nav a")].flatMap(it => [...it.getClientRects()].map(box => [it, box]));
  for (const [one, a] of entries)
    for (const [other, b] of entries)
      if (one !== other && a.left < b.left && a.right > b.left - MARKER && a.top < b.bottom - 4 && b.top < a.bottom - 4)
        say("two entries", "they touch: " + one.textContent + ", " + other.textContent);
  const isDark = matchMedia("(prefers-color-scheme: dark)").matches;
  if (isDark !== WANTS_DARK) say("the page", "the browser didn't take the scheme");
  for (const it of document.images) {
    const name = it.getAttribute("src"), box = it.getBoundingClientRect();
    if (!it.naturalWidth) say(name, "it isn't loaded");
    if (box.width < it.naturalWidth - 1) say(name, "it is made smaller, and its words too");
    if (Math.abs(box.width / box.height - it.naturalWidth / it.naturalHeight) > .02) say(name, "it lost its shape");
    if (isDark && !getComputedStyle(it).filter.includes("invert")) say(name, "it is white in a dark page");
    for (let at = it.parentElement, scrolls = false; at && !scrolls; at = at.parentElement) {
      const held = at.getBoundingClientRect();
      scrolls = /auto|scroll/.test(getComputedStyle(at).overflowX);
      const isOut = at.localName === "a" || at.localName === "html" || scrolls ? box.bottom > held.bottom + 1
        : box.right > held.right + 1 || box.bottom > held.bottom + 1;
      if (isOut) {
        say(name, "it is cut off by its " + at.localName + ", or stands out of it");
        break;
      }
      if (scrolls && (held.left < 0 || held.right > room + 1)) say(name, "what holds it is wider than the window");
    }
  }
  parent.postMessage([room, ...wrong].join("\\n"), "*");
});
</script>
"""
# Holds the page in a frame, since no window is as narrow as a phone, and shows what it says.
FRAME = """<!doctype html>
<body style="margin:0"><script>
addEventListener("message", it => {
  const told = document.body.appendChild(document.createElement("pre"));
  told.id = "looked";
  told.textContent = it.data;
});
</script><iframe src="PAGE" style="border:0;width:WIDTHpx;height:900px"></iframe>
"""


def contents(path):
    with open(path, encoding="utf-8") as source:
        return source.read()


def pictures_of(text):
    """What links and alternative texts a page lacks: how many pictures it has, and what is wrong."""
    found = re.findall(r"(<a href='([^']*)'>)?<img ([^>]*)>", text)
    wrong = []
    for _, link, attributes in found:
        told = dict(re.findall(r"(\w+)='([^']*)'", attributes))
        name = told.get("src", "a picture")
        if link != name:
            wrong.append(f"{name}: it is no link to itself")
        if len(told.get("alt", "")) < LEAST_LETTERS:
            wrong.append(f"{name}: its alternative text is too short to tell anything")
    return len(found), wrong


def looked(browser, page, width, is_dark):
    """What is wrong with a page in a window of a width, as the browser lays it out."""
    script = (LOOK.replace("LEAST_COLUMN", str(LEAST_COLUMN)).replace("LEAST_FONT", str(LEAST_FONT)).replace("MARKER", str(MARKER))
              .replace("WANTS_DARK", str(is_dark).lower()))
    with tempfile.TemporaryDirectory(prefix="profile-") as room, tempfile.NamedTemporaryFile(
            "w", encoding="utf-8", dir=os.path.dirname(os.path.abspath(page)), suffix=".html") as copy:
        copy.write(contents(page).replace("</html>", script + "</html>"))
        copy.flush()
        frame = os.path.join(room, "frame.html")
        with open(frame, "w", encoding="utf-8") as out:
            out.write(FRAME.replace("PAGE", "file://" + copy.name).replace("WIDTH", str(width)))
        done = subprocess.run([browser, "--headless", "--no-sandbox", "--disable-gpu", "--hide-scrollbars",
                               f"--blink-settings=preferredColorScheme={0 if is_dark else 1}",
                               f"--user-data-dir={room}", "--window-size=1400,900", "--virtual-time-budget=20000",
                               "--dump-dom", f"file://{frame}"], stdout=subprocess.PIPE, stderr=subprocess.DEVNULL,
                              timeout=SECONDS, check=False)
    found = re.search(rf"<pre id=.looked.>{width}(?:\n(.*?))?</pre>", done.stdout.decode(errors="replace"), re.DOTALL)
    if found is None:
        return [f"{width} pixels: the browser says nothing of the page (status {done.returncode})"]
    return [f"{width} pixels: {html.unescape(line)}" for line in (found[1] or "").split("\n") if line]


def main():
    begin(__doc__)
    page = sys.argv[1] if len(sys.argv) == 2 else os.path.join(TOP, "out", "tour", "index.html")
    if len(sys.argv) > 2 or not os.path.isfile(page):
        print(f"{__doc__.split(chr(10) * 2)[1]}\n\nno page at {page}: ./tour writes it", file=sys.stderr)
        return programs.NO_ANSWER
    count, wrong = pictures_of(contents(page))
    browser = next(filter(None, map(shutil.which, BROWSERS)), None)
    if browser is None:
        print("look_at_tour.py: there is no Chromium: how the page is laid out isn't looked at")
    else:
        wrong += [f"{'dark' if is_dark else 'light'}, {it}" for is_dark in (False, True) for width in WIDTHS
                  for it in looked(browser, page, width, is_dark)]
    return programs.tell(wrong, f"{count} pictures, {len(wrong)} wrong")


if __name__ == "__main__":
    sys.exit(main())
