#!/usr/bin/env python3
"""everywhere.py chromium|firefox|webkit PAGE.html TESTS MADE: what the page promises in every browser: the stored captures byte for byte, the panel of a
record, what is saved, the keyboard, and that nothing leaves the machine. The last line is a count."""
import pathlib
import re
import socket
import sys
import threading
import time

sys.path.insert(0, str(pathlib.Path(__file__).resolve().parent))
from engines import ENGINES

ENGINE = sys.argv[1]
PAGE, TESTS, MADE = (pathlib.Path(x).resolve() for x in sys.argv[2:5])
passed = failed = 0


def fact(what, got, expected=True):
    global passed, failed
    if got == expected:
        passed += 1
    else:
        failed += 1
        print(f"{what}: {str(got)[:300]!r}, expected {str(expected)[:300]!r}", flush=True)


def text(selector):
    return b.js(f"document.querySelector('{selector}').textContent")


def click(selector):
    b.js(f"document.querySelector('{selector}').click()")


def load(path):
    turn = b.js("desk.capture.turn")
    b.choose_file("#chosen", path)
    # what is read is drawn in the frame after
    b.until(f"desk.capture.turn > {turn} && ['none', 'read'].includes(desk.capture.state.phase) && !desk.capture.frame", 120)


def go(number):
    b.js(f"(() => {{ document.querySelector('#number').value = '{number}'; document.querySelector('#go').requestSubmit(); }})()")
    chosen()


def chosen():
    b.until("!document.querySelector('#detail .waiting')")
    return text("#detail h2")


def stored():
    """each stored capture, saved by the page one after the other, is what the proved program writes for it"""
    for path in sorted((TESTS / "captures").glob("*.bin")):
        load(path)
        if b.js("desk.capture.state.phase") == "none":
            # there is nothing to save, and the person is told why
            fact(f"{path.name}: told", bool(text("#notice b")))
            continue
        click("#save-text")
        fact(path.name, b.saved_file(path.stem + ".txt"), path.with_suffix(".out").read_text())


def panel():
    load(MADE / "telegrams.bin")
    fact("the file", text("#file"), "telegrams.bin: 6,000 records, 294,000 bytes")
    fact("the counts", bool(re.fullmatch(r"6,000 records: \d+ refused \(1\d\d turned over\), \d+ doubtful", text("#counts"))))
    go("3690")
    fact("turned over", text("#detail .verdict b"), "Refused: turned over")
    fact("swapped back", bool(re.search(r"it would say: cylinder \d, \d+\.\d\d° to (port|starboard)\.", text("#detail .verdict"))))
    fact("heard", text("#said"), "Record 3,690: telegram refused 13: turned over.")
    go("100")
    fact("a tilt", bool(re.fullmatch(r"Cylinder \d, \d+\.\d\d° to (port|starboard)", text("#detail .verdict b"))))
    fact("its bars", b.js("document.querySelectorAll('#detail .bar').length"), 32)
    fact("its bits", b.js("""(() => { const { word, runnerWord } = desk.capture.state.answers.get(100);
        const bits = [...document.querySelectorAll('#detail .bit')].map((x) => x.textContent).join('');
        return bits === Array.from(word, (x, j) => '' + x + runnerWord[j]).join(''); })()"""))
    fact("terms look like terms", b.js("getComputedStyle(document.querySelector('#detail .term')).textDecorationLine"), "underline")
    fact("and are dotted", b.js("(getComputedStyle(document.querySelector('#detail .term')).textDecorationStyle || "
                                "getComputedStyle(document.querySelector('#detail .term')).webkitTextDecorationStyle)"), "dotted")
    fact("no cell is cut off", b.js("[...document.querySelectorAll('#rows .row:not([hidden]) > span')].filter((x) => x.scrollWidth > x.clientWidth).length"), 0)
    fact("both pictures are drawn", b.js("""['strip', 'plot'].map((id) => {
        const c = document.getElementById(id), d = c.getContext('2d').getImageData(0, 0, c.width, c.height).data;
        return new Set(new Uint32Array(d.buffer)).size > 3; })"""), [True, True])


def saving():
    """the tables, byte for byte those that Python writes; asked for while a capture is read, a table is whole"""
    load(TESTS / "tilts/capture.bin")
    click("#as-52-message")
    click("#save-tilts")
    fact("the table of tilts", b.saved_file("capture-tilts.csv"), (TESTS / "tilts/table.csv").read_text())
    load(TESTS / "rods/capture.bin")
    b.js("(() => { for (const word of document.querySelectorAll('#kinds [id$=-word]')) word.click();"
         " for (const rod of document.querySelectorAll('#kinds [id$=\"1-message\"]')) rod.click(); })()")
    click("#save-rods")
    fact("the table of rods", b.saved_file("capture-rods.csv"), (TESTS / "rods/table.csv").read_text())
    name = f"long-{ENGINE}.bin"
    (MADE / name).write_bytes((MADE / "telegrams.bin").read_bytes() * 10)
    b.choose_file("#chosen", MADE / name)
    phase = b.until(f"""(() => {{ const {{ state }} = desk.capture;
        if (state.name !== '{name}' || !state.as[0x52] || state.done < 3000) return null;
        document.querySelector('#save-tilts').click();
        return state.phase; }})()""")
    fact("it is still reading", phase, "reading")
    fact("all tilts", len(b.saved_file(f"long-{ENGINE}-tilts.csv").split("\n")), 60002)
    (MADE / name).unlink()


def keyboard():
    load(MADE / "telegrams.bin")
    b.js("document.querySelector('#list').focus()")
    for key, number in ("Home", "0"), ("ArrowDown", "1"), ("ArrowUp", "0"), ("End", "5,999"), ("Home", "0"):
        b.key(key)
        fact(key, chosen(), "Record " + number)
    b.key("n")
    w = b.js("desk.capture.state.chosen")
    fact("N: the next that is not good", b.js(f"desk.capture.state.swept.sure[{w}] < 200"))
    b.key("g")
    fact("G: the number", b.js("document.activeElement.id"), "number")
    for key in "4", "3", "2", "1", "Enter":
        b.key(key)
    fact("typed and entered", chosen(), "Record 4,321")
    b.js("document.querySelector('#tab-capture').focus()")
    b.key("ArrowRight")
    fact("the tabs by arrows", b.js("document.querySelector('#view-capture').hidden && !document.querySelector('#view-hand').hidden"))
    b.key("ArrowLeft")
    b.js("document.querySelector('#plot').focus()")
    b.key("ArrowRight")
    fact("the plot's arrows", chosen(), "Record 4,322")
    b.key("+")
    fact("the plot's plus", b.js("desk.capture.state.zoom.to - desk.capture.state.zoom.from"), 3000)
    b.js("document.querySelector('#tab-capture').focus()")
    b.key("Tab")
    fact("Tab goes on", b.js("document.activeElement.id !== 'tab-capture' && document.activeElement !== document.body"))


class Listener(threading.Thread):
    """a server on this machine that counts who comes"""

    def __init__(self):
        super().__init__(daemon=True)
        self.server, self.came = socket.create_server(("127.0.0.1", 0)), 0
        self.start()

    def run(self):
        while True:
            self.server.accept()[0].close()
            self.came += 1


def sealed():
    """the policy: whatever the page's code says, nothing goes out, not even to this machine, and no other code comes in"""
    there = Listener()
    url = f"http://127.0.0.1:{there.server.getsockname()[1]}/"
    ways = {
        "fetch": f"fetch('{url}').catch(() => 0)",
        "a beacon": f"navigator.sendBeacon('{url}', 'x')",
        "a socket": f"(() => {{ try {{ new WebSocket('{url.replace('http', 'ws')}') }} catch (e) {{}} }})()",
        "an image": f"new Image().src = '{url}x.png'",
        "a script": "(() => { const s = document.createElement('script'); s.textContent = 'window.got = 1'; document.body.append(s); })()",
    }
    for what, code in ways.items():
        b.js(f"""new Promise((go) => {{
            addEventListener('securitypolicyviolation', (e) => {{ window.seen = e.effectiveDirective; go(); }}, {{ once: true }});
            window.seen = 'nothing';
            {code};
            setTimeout(go, 3000); }})""")
        expected = {"an image": "img-src", "a script": "script-src"}.get(what, "connect-src")
        fact(f"{what} is blocked", b.js("window.seen").replace("-elem", ""), expected)
    fact("no script came in", b.js("window.got === undefined"))
    worker = f"fetch(\\\"{url}\\\").then(() => postMessage(\\\"went\\\"), () => postMessage(\\\"blocked\\\"))"
    fact("a worker's fetch is blocked", b.js(f"""new Promise((go) => {{
        const made = new Worker(URL.createObjectURL(new Blob(["{worker}"], {{ type: 'text/javascript' }})));
        made.onmessage = (e) => go(e.data); }})"""), "blocked")
    time.sleep(0.2)
    fact("nobody came", there.came, 0)


b = ENGINES[ENGINE]()
try:
    b.open(PAGE.as_uri())
    b.until("document.documentElement.dataset.ready || !document.querySelector('#notice').hidden")
    print(b.about)
    fact("it starts", text("#notice"), "")
    for part in stored, panel, saving, keyboard, sealed:
        begun = time.time()
        try:
            part()
        except RuntimeError as fault:
            fact(part.__name__, str(fault), "no fault")
        print(f"{part.__name__}: {time.time() - begun:.1f} s", flush=True)
finally:
    b.close()
print(f"{passed} passed, {failed} failed")
sys.exit(failed != 0 or passed == 0)
