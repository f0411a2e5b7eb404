#!/usr/bin/env python3
"""Measures the page in Chromium and in Firefox, each without a window: how long it takes to get ready, to answer a keystroke, and to ask a filter
about 100,000 packets.

  bench/page.py [PAGE]    the page of `./build --page`, or the released one, or PAGE; some 60 seconds

Each figure is the median, and the greatest, of several. On a busy machine they grow: the first line has the load, and each browser's line how long a
loop takes in it that takes 8 to 15 ms where nothing else runs.
"""
import os
import pathlib
import statistics
import sys
import tempfile

ROOT = pathlib.Path(__file__).resolve().parent.parent
sys.path[:0] = [str(ROOT / "tests"), str(ROOT / "tests" / "page")]
import browsers
from cases.common import HEADER, VETH, records
from visit import PAGE, SPIN

PACKETS, OPENED, TYPED, ASKED = 100_000, 11, 60, 5

READY = "return performance.getEntriesByName('ready')[0].startTime - performance.getEntriesByType('navigation')[0].domInteractive"

# Keys in turn at the end of a filter of 20 instructions; with the second word the browser also lays the page out.
KEYSTROKES = """
    const field = document.getElementById('filter'), took = [];
    for (let n = 0; n < arguments[0]; n++) {
      field.value = 'tcp port 80 or 8080 or 443 or ' + '2'.repeat(1 + n % 3);
      const begun = performance.now();
      field.dispatchEvent(new Event('input'));
      if (arguments[1]) document.body.offsetHeight;
      took.push(performance.now() - begun);
    }
    return [took, document.querySelectorAll('.insn').length]"""

# From the edit of the filter until the counts of all packets are there.
ASK = """
    const field = document.getElementById('filter'), counts = document.getElementById('counts'), begun = performance.now();
    counts.textContent = '';
    window.asked = null;
    const watch = new MutationObserver(() => {
      if (!counts.textContent.startsWith(arguments[1])) return;
      window.asked = performance.now() - begun;
      watch.disconnect();
    });
    watch.observe(counts, { childList: true, characterData: true, subtree: true });
    field.value = arguments[0];
    field.dispatchEvent(new Event('input'));"""


def figure(name, values, aim, unit="ms"):
    print(f"  {name:<44} {statistics.median(values):8.1f} {unit}  at most {max(values):8.1f}  wanted {aim}")


def many_packets(folder):
    frames = records(VETH.read_bytes())
    path = pathlib.Path(folder) / "many.pcap"
    path.write_bytes(HEADER + b"".join(frames[number % len(frames)] for number in range(PACKETS)))
    return path


def ready(browser, page):
    took = []
    for _ in range(OPENED):
        browser.open(f"{page}#e=ip")
        took.append(browser.run(READY))
    return took


def asked(browser, page, capture):
    browser.open(f"{page}#e=tcp%20port%208080%20or%20443")
    browser.give_file("file", capture)
    browser.wait("return document.getElementById('counts').textContent.startsWith('100000 packets')")
    took = []
    for number in range(ASKED):
        browser.run(ASK, ["udp port 5353 or arp", "tcp port 8080 or 443"][number % 2], f"{PACKETS} packets: ")
        took.append(browser.wait("return window.asked"))
    return took


def measure(kind, page, capture):
    browser = browsers.started(kind)
    try:
        times = ready(browser, page)
        spun = browser.run(f"{SPIN} return [1, 2, 3, 4, 5].map(spin)")
        print(f"{kind.name} {browser.version}: a loop takes {statistics.median(spun):.1f} ms")
        figure("ready after the page is parsed", times, 100)
        for name, is_laid in [("a keystroke, until the page is changed", False), ("a keystroke, with the layout", True)]:
            took, count = browser.run(KEYSTROKES, TYPED, is_laid)
            figure(f"{name}, {count} instructions", took, 16)
        figure(f"{PACKETS} packets asked", asked(browser, page, capture), 2000)
    finally:
        browser.close()


def main(words):
    page = pathlib.Path(words[0]).resolve() if words else PAGE
    if page is None:
        sys.exit("bench/page.py: there is no page: ./build --page makes it")
    print(f"{page.name}, {page.stat().st_size} bytes; load {os.getloadavg()[0]:.1f} on {os.cpu_count()} processors")
    with tempfile.TemporaryDirectory() as folder:
        capture = many_packets(folder)
        for kind in (browsers.Chromium, browsers.Firefox):
            if browsers.installed(kind):
                measure(kind, f"file://{page}", capture)
            else:
                print(f"{kind.name}: not tried: {' or '.join(kind.tools)} is not here")


if __name__ == "__main__":
    main(sys.argv[1:])
