"""docs/heap.html and the pictures in a headless Chromium: the page opens, steps through every run to its end, says nothing on the console and asks for
nothing else; the replies that it shows for the runs of the bracket program are the program's own; and each picture opens with a background.

  check.py [BRACKET]
"""
import subprocess
import sys
from pathlib import Path

from browser import Browser

TOP = Path(__file__).resolve().parents[2]
INPUTS = ["changeover.txt", "evening.txt"]  # the first runs of the page

SHOWN = """(() => {
  const all = (query) => document.querySelectorAll(query), text = (query) => document.querySelector(query).textContent;
  return { line: text('#said code'), reply: text('#said code:last-child'), count: text('#count'), phases: all('#phases .now').length,
    segments: all('.segment').length, stack: all('#trace .chip').length, grey: all('.blocks .block.grey').length, items: all('#lines li.now').length };
})()"""


def stepped(browser, run):
    """Every line of a run as the page shows it, by the button."""
    browser.value(f"(() => {{ const s = document.getElementById('run'); s.value = {run}; s.dispatchEvent(new Event('change')); }})()")
    lines = browser.value("document.getElementById('lines').children.length")
    segments = browser.value(f"recordings[{run}].segments")
    shown = []
    for number in range(1, lines + 1):
        now = browser.value(SHOWN)
        assert now["count"] == f"line {number} of {lines}", now
        assert now["phases"] == now["items"] == 1 and now["segments"] == segments and now["stack"] == now["grey"], now
        shown.append((now["line"], now["reply"]))
        browser.value("document.getElementById('next').click()")
    assert browser.value("document.getElementById('count').textContent") == f"line {lines} of {lines}"
    for key, line in (("Home", 1), ("ArrowRight", 2), ("ArrowLeft", 1), ("End", lines), ("Home", 1)):
        browser.value(f"document.body.dispatchEvent(new KeyboardEvent('keydown', {{ key: '{key}', bubbles: true }}))")
        assert browser.value("document.getElementById('count').textContent") == f"line {line} of {lines}", key
    return shown


def moments(browser):
    """The page opens in the midst of a cycle, and on the moment that an address names; a wrong address is no fault."""
    shown = browser.value(SHOWN)
    assert shown["count"].startswith("line 26 of ") and shown["stack"] == 1, shown
    for address, run, line in (("#run=2&line=10", 1, 10), ("#run=3", 2, 1), ("#run=1&line=9999", 0, None), ("#run=9&line=x", 0, 26)):
        browser.value(f"(() => {{ location.hash = '{address}'; fromAddress(); }})()")
        lines = browser.value(f"recordings[{run}].steps.length")
        assert browser.value(SHOWN)["count"] == f"line {line or lines} of {lines}", address
        link = browser.value("document.getElementById('count').getAttribute('href')")
        assert link == f"#run={run + 1}&line={line or lines}", link
    print("docs/heap.html: opens in the midst of a cycle, and where an address says")


def main():
    bracket = sys.argv[1] if len(sys.argv) > 1 else None
    browser = Browser()
    browser.open(TOP / "docs/heap.html")
    moments(browser)
    runs = browser.value("recordings.length")
    for run in range(runs):
        shown = stepped(browser, run)
        compared = ""
        if run < len(INPUTS):
            text = (TOP / "docs" / INPUTS[run]).read_text()
            assert [line for line, _ in shown] == text.splitlines(), f"docs/heap.html does not play docs/{INPUTS[run]}"
            if bracket:
                said = subprocess.run([bracket], input=text, text=True, capture_output=True, check=True).stdout.splitlines()
                assert [reply for _, reply in shown] == said, f"docs/{INPUTS[run]}: the page's replies are not the program's"
                compared = "; the replies are the bracket program's"
        print(f"docs/heap.html, run {run + 1} of {runs}: {len(shown)} lines to the end{compared}")
    faults = browser.faults()
    for picture in sorted((TOP / "docs/pictures").glob("*.svg")):
        browser.events.clear()
        browser.open(picture)
        assert browser.value("document.documentElement.nodeName") == "svg", picture
        covered = "document.querySelector('rect').getBBox().width >= document.documentElement.viewBox.baseVal.width - 1"
        assert browser.value(covered), f"{picture}: no background"
        faults += browser.faults()
        print(f"docs/pictures/{picture.name}: opens, with a background of its own")
    browser.close()
    for fault in faults:
        print(fault)
    if faults:
        sys.exit("docs/heap.html or a picture: the console, or a request")
    print("docs/heap.html: nothing on the console, no request")


main()
