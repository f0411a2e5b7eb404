"""What one clicks and types answers: by keys too, in time, and on each screen."""
import re
import time

from cases.common import VETH
from truth import put_many
from visit import IDLE, SPIN

OPEN = "return document.querySelector('nav details').hasAttribute('open')"
FOCUS = "const at = document.activeElement; return [at.id || at.tagName.toLowerCase(), at.textContent]"


def use_lessons(visit):
    """The menu of lessons closes when one is chosen, on Escape and when the focus leaves it; the focus stays on the lesson's links."""
    visit.open("#e=icmp")
    menu = "document.querySelector('nav summary').focus()"
    visit.run(menu)
    visit.press("Enter")
    visit.check("it opens", visit.run(OPEN), True)
    visit.press("Tab", "Escape")
    visit.check("Escape closes it", (visit.run(OPEN), visit.run(FOCUS)[0]), (False, "summary"))
    visit.press("Enter")
    visit.run("document.getElementById('filter').focus()")
    visit.check("when the focus leaves it", visit.run(OPEN), False)
    visit.run(menu)
    visit.press("Enter", "Tab", "Tab", "Enter")
    visit.check_has("a lesson", "lesson", "Lesson: Why a packet was dropped")
    visit.check("when one is chosen", visit.run(OPEN), False)
    visit.check("the focus is on its first stop", visit.run(FOCUS), ["a", visit.run("return document.querySelector('#lesson li a').textContent")])
    visit.press("Tab", "Tab", "Enter")
    visit.wait("return document.querySelectorAll('#lesson li a')[2].getAttribute('aria-current') === 'step'")
    third = visit.run("return document.querySelectorAll('#lesson li a')[2].textContent")
    visit.check("the focus stays on the link", visit.run(FOCUS), ["a", third])
    visit.press("Tab", "Enter")
    visit.wait("return document.querySelectorAll('#lesson li a')[3].getAttribute('aria-current') === 'step'")
    visit.check("and goes on from there", visit.run("return document.querySelectorAll('#lesson a[aria-current]').length"), 1)


def scroll_by_keys(visit):
    """Left and right scroll a part that scrolls sideways, and go through the steps elsewhere."""
    visit.browser.resize(420, 900)
    visit.open("#e=tcp%20port%208080&p=123")
    visit.check_has("the run", "step", "Step 12 of 12")
    tab = "document.querySelector(`button[data-tab=${arguments[0]}]`).click()"
    for part, name in (("listing", "filter"), ("bytes", "packet")):
        visit.run(tab, name)
        visit.run("document.getElementById(arguments[0]).focus()", part)
        visit.press("ArrowRight", "ArrowRight", "ArrowRight")
        visit.check(f"{part} scrolls", visit.wait("return document.getElementById(arguments[0]).scrollLeft > 0", part), True)
    visit.check("the run stays", visit.text("step")[:7], "Step 12")
    visit.run(tab, "graph")
    visit.run("document.getElementById('graph').focus()")
    visit.press("ArrowLeft")
    visit.check_has("a step back", "step", "Step 11 of 12")
    visit.browser.resize(1500, 1250)


# Where the parts of the page are, and whether what is typed has a fault.
TOPS = """
    const top = (name) => Math.round(document.getElementById(name).getBoundingClientRect().top + scrollY);
    return [['listing', 'other', 'packet-list', 'bytes', 'graph-box'].map(top), document.getElementById('fault').childElementCount > 0];"""
WATCH = """
    window.shift = 0;
    const add = (list) => list.getEntries().forEach((entry) => { window.shift += entry.value; });
    new PerformanceObserver(add).observe({ type: 'layout-shift' });"""


def hold_still(visit):
    """While a word is half typed nothing moves; in all the page shifts by at most 0.05, which Chromium measures."""
    for width in (1500, 800):
        visit.browser.resize(width, 1250)
        visit.open("#e=tcp%20port%208080%20or%20443&p=123")
        visit.check_has("all counted", "counts", "253 packets")
        if visit.browser.name == "Chromium":
            visit.run(WATCH)
        visit.run("const field = document.getElementById('filter'); field.focus(); field.select()")
        before, moved = visit.run(TOPS)[0], []
        for character in "tcp port 8080 or udp port 5353":
            visit.press(character)
            tops, has_fault = visit.run(TOPS)
            if has_fault and tops != before:
                moved.append([visit.run("return document.getElementById('filter').value"), before, tops])
            before = tops
        visit.check(f"nothing moves at {width} pixels", moved, [])
        if visit.browser.name == "Chromium":
            shift = visit.wait("return new Promise((done) => setTimeout(() => done([window.shift]), 200))")[0]
            visit.check(f"a shift of {shift} at {width} pixels", shift <= 0.05, True)
    visit.browser.resize(1500, 1250)


NOTE = """
    window.noted = { 'capture-name': [], counts: [] };
    for (const [name, said] of Object.entries(window.noted)) {
      new MutationObserver(() => said.push(document.getElementById(name).textContent)).observe(document.getElementById(name), { childList: true });
    }"""
ASK = """
    window.noted.counts.length = 0;
    const field = document.getElementById('filter'), begun = performance.now();
    field.value = arguments[0];
    field.dispatchEvent(new Event('input'));
    window.took = null;
    const done = () => { if (window.noted.counts.some((text) => text.startsWith('1000000 packets: '))) window.took = performance.now() - begun; };
    const timer = setInterval(() => { done(); if (window.took) clearInterval(timer); }, 20);"""


def ask_million(visit):
    """1,000,000 packets: a sign of life while they are read, at most five redraws a second while they are asked, and an answer within 8 s where
    nothing else runs; twice that is a fault."""
    put_many(visit, "million.pcap", 1_000_000, 40)
    visit.open("#e=tcp%20port%208080%20or%20443")
    visit.check_has("the example", "counts", "253 packets")
    visit.run(NOTE)
    visit.browser.give_file("file", visit.scene.folder / "million.pcap")
    visit.check_has("all counted", "counts", "1000000 packets: ")
    said = visit.run("return window.noted['capture-name']")
    visit.check("signs of life", any(re.search(r"reading, \d+ packets so far", text) for text in said) or said, True)
    visit.run(ASK, "udp port 5353 or arp")
    took = visit.wait("return window.took")
    slow = visit.run(f"{SPIN} return Math.max(spin(), spin(), spin())")
    visit.check(f"asked within 16 s, not {took:.0f} ms where a loop takes {slow}", took <= 16000 * max(1, slow / IDLE), True)
    redraws = visit.run("return window.noted.counts.length")
    visit.check(f"{redraws} redraws in {took:.0f} ms", redraws <= took / 200 + 4, True)


def bound_links(visit):
    """A link that is too long, or has numbers out of range, says so; what is typed is bounded too."""
    begun = time.monotonic()
    visit.open("#e=icmp")
    visit.run("location.hash = '#e=' + 'x'.repeat(1000000)")
    visit.check_has("a megabyte", "notice", "This link has 1000003 characters, of which none is read: at most 32768 are.")
    visit.check("in time", time.monotonic() - begun < 10, True)
    visit.check("the first state", visit.run("return document.getElementById('filter').value"), "tcp port 8080 or 443")
    for word in ("c=-5", "c=4294967306", "c=262145", "c=1e3", "p=-5", "p=4294967296"):
        visit.open(f"#e=icmp&{word}")
        wanted = "1 to 262144" if word[0] == "c" else "0 to 4294967295"
        visit.check_has(word, "notice", f"{word} of the link is left out: it is no number from {wanted}.")
        visit.check_has(f"{word}, whole packets", "counts", "253 packets: 49 Yes")
        visit.check(f"{word}, the first one", visit.text("packet-title"), "Packet 2: 98 bytes")
    visit.open("#e=icmp&c=40&p=0")
    visit.check_has("a number that is one", "packet-title", "Packet 0: 40 of 42 bytes")
    visit.check("nothing is said", visit.text("notice"), "")
    for value in ("-5", "262145", "1.5"):
        visit.run("const cut = document.getElementById('cut'); cut.value = arguments[0]; cut.dispatchEvent(new Event('change'))", value)
        visit.check(f"{value} typed", (visit.text("capture-hint"), visit.text("packet-title")),
                    ("keep from 1 to 262144 bytes, or all: the packets stay as they are", "Packet 0: 40 of 42 bytes"))
    visit.open("#v=listeners")
    visit.wait_for("reports", "listener 0")
    fill = """
        const type = (name, text) => { const area = document.getElementById(name); area.value = text; area.dispatchEvent(new Event('input')); };
        type('listeners-text', arguments[0]);
        type('script-text', arguments[1]);"""
    visit.run(fill, "64 192 icmp\n" * 60, "arrive\n" * 5000)
    visit.check_has("a large picture", "not-drawn", "The picture would have 300000 columns, and at most 10000 are drawn.")
    visit.check_has("its reports", "reports", "listener 59 received 253 matched 49")
    shapes = "return document.getElementById('picture').shadowRoot.querySelectorAll('*').length"
    visit.check("nothing is drawn", visit.run(shapes), 0)
    visit.check("too long for a link", visit.wait("return !document.getElementById('too-long').hidden"), True)
    visit.check("the address", visit.run("return location.hash.length < 2"), True)
    visit.run(fill, "64 192 icmp\n", "arrive\n" * 10)
    visit.wait(f"{shapes} > 40")
    visit.check("a link again", visit.wait("return document.getElementById('too-long').hidden"), True)


def luminance(color):
    parts = [int(number) / 255 for number in re.findall(r"\d+", color)[:3]]
    red, green, blue = (part / 12.92 if part <= 0.04045 else ((part + 0.055) / 1.055) ** 2.4 for part in parts)
    return 0.2126 * red + 0.7152 * green + 0.0722 * blue


def contrast(one, other):
    light, dark = sorted((luminance(one), luminance(other)), reverse=True)
    return (light + 0.05) / (dark + 0.05)


# The colours of the marks of the picture, of the room that they are drawn on, of the page, and of the hatching.
COLORS = """
    const root = document.getElementById('picture').shadowRoot, of = (shape, what) => getComputedStyle(root.querySelector(shape))[what];
    const colorOf = (name) => of(`${root.querySelector(`path.${name}`) ? 'path' : 'rect'}.${name}`, 'fill');
    const marks = ['store', 'hold', 'dropped', 'read', 'turned', 'passed', 'closed'].map((name) => [name, colorOf(name)]);
    return { marks, record: of('.record', 'stroke'), room: of('.room', 'fill'), paper: of('.page', 'fill'), hatch: of('.hatch', 'stroke'),
             text: of('text', 'fill'),
             hatched: ['dropped', 'over', 'read', 'turned', 'store', 'hold'].filter((name) => of(`rect.${name}`, 'fill').includes('url(')),
             box: getComputedStyle(document.getElementById('listeners').querySelector('section')).backgroundColor };"""


def see_colors(visit):
    """Marks of the picture differ from what they are drawn on by a contrast of 3, and from each other by hatching, in light and in dark."""
    visit.open("#v=listeners")
    visit.wait_for("reports", "listener 0")
    seen = visit.run(COLORS)
    for name, color in [*seen["marks"], ("record", seen["record"])]:
        visit.check(f"{name}, {color}", min(contrast(color, seen["room"]), contrast(color, seen["paper"])) >= 3, True)
    visit.check("hatched", seen["hatched"], ["dropped", "over", "read", "turned"])
    for name, color in seen["marks"]:
        if name in ("dropped", "read", "turned"):
            visit.check(f"the lines of {name}, {color}", contrast(color, seen["hatch"]) >= 3, True)
    visit.check("the page's own colours", (seen["paper"], contrast(seen["text"], seen["paper"]) > 7), (seen["box"], True))


def read_drawings(visit):
    """Drawings and tables have roles and names; the picture's labels count steps, as its heading does; its legend is not cut."""
    visit.open("#v=listeners")
    visit.wait_for("reports", "listener 0")
    visit.run("document.getElementById('picture').focus()")
    visit.press(*["ArrowRight"] * 7)
    visit.check_has("step 8", "column", "step 8 arrive capture 0 place 6")
    labels = visit.run("""
        const root = document.getElementById('picture').shadowRoot, cursor = root.querySelector('rect.cursor').getBoundingClientRect();
        const middle = (cursor.left + cursor.right) / 2, names = [...root.querySelectorAll('text.name')];
        const under = names.filter((name) => { const { left, right } = name.getBoundingClientRect(); return left < middle && middle < right; });
        return [under.map((name) => name.textContent), names.map((name) => name.textContent)]""")
    visit.check("the label of the column", set(labels[0]), {"8"})
    visit.check("all labels", labels[1], "1 2 3 5 6 7 8 R9 10 C12 13 1 2 3 R4 5 6 7 8 10 F11 13".split())
    roles = visit.run("""
        const root = document.getElementById('picture').shadowRoot, svg = root.querySelector('svg[role=img]');
        return [document.getElementById('picture').getAttribute('role'), svg.getAttribute('aria-label').includes('Steps: 13. Listeners: 2.')]""")
    visit.check("roles", roles, ["group", True])
    visit.browser.resize(420, 900)
    visit.open("#v=listeners")
    visit.wait_for("reports", "listener 0")
    cut = visit.run("""
        const box = document.getElementById('picture'), right = box.getBoundingClientRect().left + box.clientWidth;
        const items = [...box.shadowRoot.querySelectorAll('ul li')];
        return [items.length, items.filter((item) => item.getBoundingClientRect().right > right).length]""")
    visit.check("the legend", cut, [8, 0])
    visit.browser.resize(1500, 1250)
    visit.open("#e=icmp&p=2")
    visit.wait_for("looks", "ethertype")
    heads = visit.run("return [...document.querySelectorAll('#looks-table th')].map((head) => [head.textContent, head.scope])")
    visit.check("heads of the table", heads, [["bytes", "col"], ["value", "col"], ["field", "col"]])


def stay_in_width(visit):
    """No part of the page is wider than the screen."""
    for width in (1500, 700, 420):
        visit.browser.resize(width, 900)
        for link in ("#e=tcp%20port%208080&p=123&o=tcp", "#v=listeners", "#e=icmp%20and%20proot%2017"):
            visit.open(link)
            visit.wait_for("capture-name", VETH.name)
            wide = visit.run("return document.documentElement.scrollWidth - document.documentElement.clientWidth")
            visit.check(f"{link} at {width} pixels", wide <= 0 or wide, True)
    visit.browser.resize(1500, 1250)


def use_tabs(visit):
    """On a narrow screen the answer is seen without a scroll, and the filter, the packet and the graph are tabs; on a wide one all are there."""
    shown = """
        const isSeen = (name) => document.getElementById(name).getClientRects().length > 0;
        const { bottom } = document.getElementById('answer').getBoundingClientRect();
        return [['tabs', 'filter', 'chosen', 'graph-box'].filter(isSeen), scrollY === 0 && bottom < innerHeight]"""
    visit.browser.resize(420, 800)
    visit.open("#e=tcp%20port%208080&p=123")
    visit.check_has("the answer", "answer", "Packet 123: Yes tcp port 8080")
    visit.check("at first", visit.run(shown), [["tabs", "filter"], True])
    for name, part in (("packet", "chosen"), ("graph", "graph-box"), ("filter", "filter")):
        visit.run("document.querySelector(`button[data-tab=${arguments[0]}]`).click()", name)
        visit.check(name, visit.run(shown)[0], ["tabs", part])
        pressed = "return [...document.querySelectorAll('[data-tab][aria-pressed=true]')].map((button) => button.dataset.tab)"
        visit.check(f"{name} is pressed", visit.run(pressed), [name])
    visit.browser.resize(1500, 1250)
    visit.check("on a wide screen", visit.run(shown)[0], ["filter", "chosen", "graph-box"])


SAVE = """
    URL.createObjectURL = (blob) => { window.saved = blob; return 'data:,'; };
    document.getElementById(arguments[0]).click();
    return window.saved.arrayBuffer().then((bytes) => [...new Uint8Array(bytes)]);"""


def save_parts(visit):
    """What is saved of a filter is what the program writes: the packets that it accepts, and the program in three forms."""
    for word, size in (("", "262144"), ("&c=60", "60")):
        visit.open(f"#e=icmp%20or%20arp{word}")
        visit.check_has("all counted", "counts", "253 packets: ")
        visit.scene.run(["cut", "-s", size, "-e", "icmp or arp", VETH, "wanted.pcap"])
        visit.check(f"packets of {size} bytes", bytes(visit.run(SAVE, "save-accepted")) == visit.scene.read("wanted.pcap"), True)
    for name, option in (("names", "-d"), ("array", "-dd"), ("listing", "-ddd")):
        printed = visit.scene.run(["check", *([option] if option != "-ddd" else []), "icmp or arp"]).out
        visit.check(name, bytes(visit.run(SAVE, f"save-{name}")).decode(), printed.decode())


# What is also looked at in a dark browser.
DARK_VISITS = [see_colors]
VISITS = [use_lessons, scroll_by_keys, hold_still, ask_million, bound_links, see_colors, read_drawings, stay_in_width, use_tabs, save_parts]
