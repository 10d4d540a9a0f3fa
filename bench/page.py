#!/usr/bin/env python3
"""Measures how long the page of `tools/picture --html` takes for a key, in chromium: bench/page.py [ENTRIES]

Of so many entries (5,000 if left out) of 16 backends that make, change and show tables, a page is made, with its commands. In the
browser 100 keys of each kind are pressed one after the other, and for each the time is taken until the page is laid out anew.
CATSYNC_PROGRAM names another program than the proved executable. It decides nothing.
"""
import os
import random
import re
import subprocess
import sys
import tempfile

TOP = os.path.dirname(os.path.dirname(os.path.abspath(__file__)))
sys.path.insert(0, os.path.join(TOP, "tools"))
sys.dont_write_bytecode = sys.pycache_prefix is None

from catsync_tools.outputs import read_output
from catsync_tools.picture import picture_of, span_of
from catsync_tools.program import PROVED, Program
from catsync_tools.sources import read_source

BACKENDS = 16
PRESS = """<script>
const began = performance.now();
document.body.offsetHeight;
const laid = performance.now() - began, told = ['layout ' + laid.toFixed(0)];
for (const [name, key, shiftKey] of [['down', 'j', false], ['end', 'End', false], ['up', 'k', false], ['home', 'Home', false],
                                     ['page', 'PageDown', false], ['shift', 'J', true]]) {
  const times = [];
  for (let i = 0; i < 100; i++) {
    const before = performance.now();
    document.dispatchEvent(new KeyboardEvent('keydown', {key, shiftKey, bubbles: true}));
    document.body.offsetHeight;
    times.push(performance.now() - before);
  }
  times.sort((a, b) => a - b);
  told.push(name + ' ' + times[50].toFixed(1) + ' ' + times[99].toFixed(1));
}
document.title = told.join(' / ') + ' / ' + document.body.dataset.entry;
</script></body>"""


def script_of(entries):
    """A script whose history has at least so many entries."""
    draw, lines = random.Random(1), ["backends %d" % BACKENDS]
    for number in range(entries // 10):
        backend, table = draw.randint(1, BACKENDS), "t%d" % draw.randint(1, 20)
        lines.append("%d: %s" % (backend, draw.choice((
            "create table %s (a int4, b text)" % table, "show " + table, "show " + table,
            "alter table %s alter column a set statistics %d" % (table, number)))))
    turns = " ".join("%d*%d" % (draw.randint(1, BACKENDS), draw.randint(1, 9)) for _ in range(entries // 3))
    return "\n".join(lines + ["steps " + turns, "end", ""]).encode()


def main():
    """Measures, and prints what the browser told."""
    entries = int(sys.argv[1]) if len(sys.argv) > 1 else 5000
    script = script_of(entries)
    output = read_output(Program(os.environ.get("CATSYNC_PROGRAM", PROVED)).run(script).output)
    span = span_of(len(output.entries), 1, min(entries, len(output.entries)))
    page = picture_of(output, True, span, read_source(script).commands)
    with tempfile.TemporaryDirectory() as folder:
        path = os.path.join(folder, "page.html")
        with open(path, "w", encoding="utf-8") as file:
            file.write(page.replace("</body>", PRESS))
        shown = subprocess.run(["chromium", "--headless", "--no-sandbox", "--disable-gpu", "--user-data-dir=" + folder + "/data",
                                "--window-size=1440,900", "--dump-dom", "file://" + path], stdout=subprocess.PIPE,
                               stderr=subprocess.DEVNULL, check=True).stdout.decode()
    print("%d entries of %d, a page of %.1f MB" % (span.last, len(output.entries), len(page) / 1e6))
    print("milliseconds, of a key the middle one of 100 and the longest: " + re.search("<title>(.*?)</title>", shown).group(1))


main()
