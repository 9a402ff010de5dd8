#!/usr/bin/env python3
"""page.py PAGE.html CAPTURES MADE [PART ..]: the page in a headless Chromium, opened from a file, as a person uses it: by mouse, by keyboard, with
good captures and bad ones; and that nothing leaves the machine. With names only these parts, and the last. The last line is a count."""
import os
import pathlib
import re
import sys
import time

sys.path.insert(0, os.path.dirname(os.path.abspath(__file__)))
from browser import Chromium

PAGE, CAPTURES, MADE = (pathlib.Path(x).resolve() for x in sys.argv[1:4])
ONLY = sys.argv[4:]
passed = failed = 0


def fact(what, got, expected=True):
    global passed, failed
    if got == expected:
        passed += 1
    else:
        failed += 1
        print(f"{what}: {str(got)[:300]!r}, expected {str(expected)[:300]!r}", flush=True)


def text(selector):
    return b.js(f"document.querySelector('{selector}')?.textContent")


def click(selector):
    b.js(f"document.querySelector('{selector}').click()")


def hidden(selector):
    return b.js(f"document.querySelector('{selector}').checkVisibility() === false")


def opened(act):
    """a capture that is opened by `act`, until all of it is read and drawn"""
    turn = b.js("desk.capture.turn")
    act()
    # what is read is drawn in the frame after
    b.until(f"desk.capture.turn > {turn} && ['none', 'read'].includes(desk.capture.state.phase) && !desk.capture.frame", 120)


def load(path):
    opened(lambda: b.choose_file("#chosen", path))


def go(number):
    b.js(f"document.querySelector('#number').value = '{number}'; document.querySelector('#go').requestSubmit()")


def chosen():
    """the title of the chosen record, when its answer is there"""
    b.until("!document.querySelector('#detail .waiting')")
    return text("#detail h2")


def rows():
    """the rows in sight as texts, when all are filled"""
    b.until("!desk.capture.frame && !desk.capture.listFrame && !desk.capture.lists.work")
    b.until("[...document.querySelectorAll('#rows .row:not([hidden]) .answer')].every((x) => x.textContent !== '…')")
    return b.js("[...document.querySelectorAll('#rows .row:not([hidden])')].map((x) => [...x.children].map((y) => y.textContent).join('|'))")


def save_answers():
    click("#save-text")
    return b.saved_file(b.js("desk.capture.baseName()") + ".txt")


def listing():
    load(MADE / "telegrams.bin")
    fact("the file", text("#file"), "telegrams.bin: 6,000 records, 294,000 bytes")
    fact("telegrams are guessed", b.js("document.querySelector('#as-52-message').checked"))
    fact("and said to be a guess", text("#guess-52").startswith("guessed by this page: "))
    fact("the counts", bool(re.fullmatch(r"6,000 records: \d+ refused \(1\d\d turned over\), \d+ doubtful", text("#counts"))))
    fact("the first row", rows()[0].split("|")[:2], ["0", "RM(2,5)"])
    fact("its telegram", bool(re.fullmatch(r"0: (level|\d+\.\d\d° (port|starboard))", rows()[0].split("|")[2])))
    go("4,000")
    fact("go to a record", chosen(), "Record 4,000")
    fact("its row is in sight and marked", text("#rows .row[aria-selected=true] .number"), "4,000")
    go("6000")
    fact("no such record", text("#notice"), "There is no such record.This capture has the records 0 to 5,999.")
    go("-3")
    fact("no such number", text("#notice b"), "There is no such record.")
    go("17")
    fact("the notice is gone", hidden("#notice"))
    wheel = "document.querySelector('#list').dispatchEvent(new WheelEvent('wheel', { deltaY: 2600, cancelable: true }))"
    before = b.js("desk.capture.list.top")
    b.js(wheel)
    fact("the wheel", round(b.js("desk.capture.list.top") - before), 100)
    b.js("document.querySelector('#list').scrollTop = 1e9")
    b.until("desk.capture.list.inSight().at(-1) === 5999")
    fact("the scroll bar's end", rows()[-1].split("|")[0], "5,999")


def keyboard():
    """the keyboard alone"""
    b.js("document.querySelector('#tab-capture').focus()")
    for _ in range(30):
        b.key("Tab")
        if b.js("document.activeElement.id") == "list":
            break
    fact("the list is reached by Tab", b.js("document.activeElement.id"), "list")
    for key, number in ("Home", "0"), ("ArrowDown", "1"), ("ArrowUp", "0"), ("End", "5,999"), ("Home", "0"):
        b.key(key)
        fact(key, chosen(), "Record " + number)
    b.key("PageDown")
    fact("Page Down", b.js("desk.capture.state.chosen > 3"))
    b.key("n")
    w = b.js("desk.capture.state.chosen")
    fact("N: the next doubtful one", b.js(f"desk.capture.state.swept.sure[{w}] < 200"))
    b.key("n")
    b.key("p")
    fact("P: back", b.js("desk.capture.state.chosen"), w)
    b.key("g")
    fact("G: the number", b.js("document.activeElement.id"), "number")
    for digit in "4321":
        b.key(digit)
    b.key("Enter")
    fact("typed and entered", chosen(), "Record 4,321")
    b.js("document.querySelector('#show-all').focus()")
    b.key("ArrowRight")
    fact("the choice by arrows", b.js("document.querySelector('#show-refused').checked && desk.capture.state.show"), "refused")
    b.key("ArrowLeft")
    b.js("document.querySelector('#tab-capture').focus()")
    b.key("ArrowRight")
    fact("the tabs by arrows", hidden("#view-capture") and not hidden("#view-hand"))
    b.key("ArrowLeft")
    b.js("document.querySelector('#plot').focus()")
    b.key("ArrowRight")
    fact("the plot's arrows", chosen(), "Record 4,322")
    b.key("+")
    fact("the plot's plus", b.js("desk.capture.state.zoom.to - desk.capture.state.zoom.from"), 3000)
    b.key("0")
    fact("the plot's 0", b.js("desk.capture.state.zoom.to - desk.capture.state.zoom.from"), 6000)
    b.js("document.querySelector('#detail .term').focus()")
    b.key("Enter")
    fact("a word is explained", text("#detail .explained:not([hidden])").startswith("Penalty. How much had to be overruled"))


def filters():
    click("#show-doubtful")
    many = b.js("desk.capture.list.count")
    fact("doubtful ones", b.js("desk.capture.state.counts.doubtful"), many)
    fact("all below the limit", all(float(x.split("|")[3].split()[0]) < 20 for x in rows()))
    b.js("const limit = document.querySelector('#limit'); limit.value = '10'; limit.dispatchEvent(new Event('input'))")
    fact("a lower limit lists fewer", 0 < b.js("desk.capture.list.count") < many)
    b.js("{ const limit = document.querySelector('#limit'); limit.value = '20'; limit.dispatchEvent(new Event('input')) }")
    click("#order")
    sure = [float(x.split("|")[3].split()[0]) for x in rows()]
    fact("least sure first", sure == sorted(sure) and sure[0] < 2)
    click("#show-refused")
    fact("refused ones", b.js("desk.capture.list.count"), b.js("desk.capture.state.counts.refused"))
    click("#show-turned")
    fact("turned over ones", b.js("desk.capture.list.count"), b.js("desk.capture.state.counts['turned over']"))
    click("#order")
    click("#show-all")
    fact("all again", b.js("desk.capture.list.count"), 6000)
    click("#as-52-word")
    fact("as plain words", bool(re.fullmatch("[01]{16}", rows()[0].split("|")[2])))
    fact("said to be chosen", text("#guess-52"), "as you chose")
    fact("no plot of plain words", hidden("#plot"))
    click("#as-52-message")
    fact("and back", not hidden("#plot"))


def drawing():
    """what is drawn is looked at by its elements; canvases by their pixels"""
    go("3690")  # in the stretch with the link turned over
    chosen()
    fact("turned over", text("#detail .verdict b"), "Refused: turned over")
    fact("swapped back", bool(re.search(r"swapped back it would say: cylinder \d, \d+\.\d\d° to (port|starboard)\.", text("#detail .verdict"))))
    go("100")
    chosen()
    wrong = b.js("""(() => {
        const a = desk.capture.state.answers.get(100), middle = document.querySelector('#detail .axis').y1.baseVal.value;
        const bars = [...document.querySelectorAll('#detail .bar')];
        if (bars.length !== 32) return 'bars: ' + bars.length;
        for (let j = 0; j < 32; j++) {
            const top = bars[j].y.baseVal.value, low = top + bars[j].height.baseVal.value, x = a.readings[j];
            if (x > 0 && (Math.abs(low - middle) > 0.01 || top >= middle)) return 'bar for 0: ' + j;
            if (x < 0 && (Math.abs(top - middle) > 0.01 || low <= middle)) return 'bar for 1: ' + j;
            const against = x !== 0 && (x < 0) !== (a.word[j] === 1);
            if (bars[j].classList.contains('against') !== against) return 'against ' + j;
            if (!against && !bars[j].classList.contains(x < 0 ? 'one' : 'zero')) return 'color ' + j;
        }
        const bits = [...document.querySelectorAll('#detail .bit')].map((x) => x.textContent).join('');
        const rows = Array.from(a.word, (x, j) => '' + x + a.runnerWord[j]).join('');
        if (bits !== rows) return 'bits';
        const frames = document.querySelectorAll('#detail .frame').length - document.querySelectorAll('#detail .key .frame').length;
        return frames === Array.from(a.word).filter((x, j) => x !== a.runnerWord[j]).length ? 'right' : 'frames';
    })()""")
    fact("the picture of a record", wrong, "right")
    pixels = """((id) => { const c = document.getElementById(id), d = c.getContext('2d').getImageData(0, 0, c.width, c.height).data;
        const seen = new Set(); for (let i = 0; i < d.length; i += 4) if (d[i + 3]) seen.add((d[i] << 16) | (d[i + 1] << 8) | d[i + 2]); return seen.size; })"""
    fact("the strip is drawn", b.js(pixels + "('strip')") > 3)
    fact("the plot is drawn", b.js(pixels + "('plot')") > 20)
    fact("its cylinders", re.findall(r"cylinder (\d)", text("#cylinders")), ["0", "1", "2"])
    box = b.js("(() => { const r = document.querySelector('#plot').getBoundingClientRect(); return [r.left, r.top, r.width, r.height]; })()")
    at = lambda part: (box[0] + 66 + part * (box[2] - 76), box[1] + box[3] / 2)
    b.mouse(at(0.25))
    fact("a press on the plot", abs(b.js("desk.capture.state.chosen") - 1500) < 10)
    b.mouse(at(0.5), at(0.6), at(0.75))
    zoom = b.js("[desk.capture.state.zoom.from, desk.capture.state.zoom.to]")
    fact("a drag zooms", abs(zoom[0] - 3000) < 12 and abs(zoom[1] - 4500) < 12)
    click("#zoom-in")
    fact("zoom in", abs(b.js("desk.capture.state.zoom.to - desk.capture.state.zoom.from") - (zoom[1] - zoom[0]) / 2) <= 1)
    click("#zoom-all")
    fact("zoom out to all", b.js("desk.capture.state.zoom.to"), 6000)
    strip = b.js("(() => { const r = document.querySelector('#strip').getBoundingClientRect(); return [r.left, r.top, r.width]; })()")
    b.mouse((strip[0] + strip[2] * 0.75, strip[1] + 20))
    fact("a press on the strip", abs(b.js("desk.capture.state.chosen") - 4500) < 10)


def saving():
    click("#save-tilts")
    table = b.saved_file("telegrams-tilts.csv").split("\n")
    fact("the table's head", table[0], "record,refusal,cylinder,tilt_degrees,direction,penalty,gap,sure_percent")
    fact("its rows", len(table), 6002)
    shape = re.compile(r"\d+,(0,[0-7],\d+\.\d\d,(port|starboard|level),\d+,\d+,\d+\.\d|(13|14|15),,,,\d+,\d+,\d+\.\d|[67],,,,,,)")
    fact("every row has size and direction apart", [x for x in table[1:-1] if not shape.fullmatch(x)], [])
    fact("some to each side", {"port", "starboard"} <= {x.split(",")[4] for x in table[1:-1]})


def bad_files():
    load(MADE / "torn.bin")
    fact("torn off", text("#notice b"), "Record 50 is torn off.")
    go("50")
    chosen()
    fact("its row", rows()[-1].split("|")[:3], ["50", "", "torn off"])
    fact("as far as it goes", "30 of its 49 bytes are there, and with them 19 of its 32 readings." in text("#detail .verdict"))
    fact("its bars", b.js("document.querySelectorAll('#detail .bar').length"), 19)
    load(MADE / "stray.bin")
    fact("a stray byte", text("#notice b"), "Record 20 is not a record.")
    go("20")
    chosen()
    fact("its bytes", text("#detail .hex"), "9F 01 02 03")
    for name, told in ("text", "This file is not a capture."), ("begun", "This file holds no whole record."), ("empty", "This file is empty."):
        load(MADE / f"{name}.bin")
        fact(name, text("#notice b"), told)
        fact(f"{name}: nothing to save", b.js("document.querySelector('#save-text').disabled && document.querySelector('#save-tilts').disabled"))
    # two gigabytes that take no room on the disk
    with open(MADE / "large.bin", "wb") as f:
        f.truncate(2 << 30)
    turn = b.js("desk.capture.turn")
    b.choose_file("#chosen", MADE / "large.bin")
    b.until("!document.querySelector('#notice').hidden && document.querySelector('#notice b').textContent.includes('too large')")
    fact("2 GB", text("#notice span").startswith("It has 2,048 MB; the page takes up to 512 MB."))
    fact("it is not opened", b.js("desk.capture.turn"), turn)
    # many records, more than are kept: 90 million of 3 bytes
    with open(MADE / "many.bin", "wb") as f:
        f.truncate(3 * 21_000_000)
    b.choose_file("#chosen", MADE / "many.bin")
    b.until("document.querySelector('#notice b')?.textContent.includes('too many records')", 60)
    fact("too many records", text("#notice span").startswith("It has 21,000,000; the page takes up to 20,000,000."))
    for name in "large", "many":
        os.remove(MADE / f"{name}.bin")
    opened(lambda: b.drop(MADE / "sample.bin"))
    fact("dropped on the page", text("#file"), "sample.bin: 300 records, 14,700 bytes")
    fact("the notice is gone", hidden("#notice"))


def by_hand():
    go("12")
    chosen()
    typed = lambda value: b.js(f"document.querySelector('#typed').value = '{value}'; document.querySelector('#typed').dispatchEvent(new Event('input'))")
    answer = lambda: b.until("document.querySelector('#hand-answer .verdict')?.textContent")
    b.js("[...document.querySelectorAll('#detail button')].find((x) => x.textContent === 'Try changes').click()")
    answer()
    fact("try changes", text("#origin"), "From record 12, unchanged.")
    b.js("document.querySelector('#hand-answer .position').dispatchEvent(new MouseEvent('click', { bubbles: true }))")
    b.until("document.querySelector('#origin').textContent === 'From record 12, 1 changed.'")
    fact("a bar is pressed", text("#origin"), "From record 12, 1 changed.")
    click("#undo")
    fact("undone", text("#origin"), "From record 12, unchanged.")
    b.js("document.querySelector('#code').value = 0x21; document.querySelector('#code').onchange()")
    fact("too many", text("#typed-state"), "32 readings; this code takes 4.")
    typed("5 -2 3 1")
    answer()
    fact("the example of the rules", b.js("[...document.querySelectorAll('#hand-answer .numbers dd')].map((x) => x.textContent).join(' ')"), "1 1 18 % 9")
    fact("its bits", text("#hand-answer .facts .mono"), "011")
    typed("5 -2 x 1")
    fact("not a reading", text("#typed-state"), "“x” is not a reading: whole numbers from -32,767 to 32,767.")
    fact("no answer is left", hidden("#hand-answer .verdict") if text("#hand-answer .verdict") else True)
    typed("0 0 0 0")
    fact("a tie", answer().startswith("Refused: tied"))
    b.js("document.querySelector('#noise').value = 0; document.querySelector('#telegram').requestSubmit()")
    b.until("document.querySelector('#hand-answer .verdict b')?.textContent === 'Cylinder 5, 12.34° to port'")
    fact("a telegram is made", b.js("document.querySelector('#typed').value.split(' ').every((x) => Math.abs(x) === 400)"))
    b.js("document.querySelector('#noise').value = 30; document.querySelector('#noise').oninput()")
    fact("with noise", b.js("!document.querySelector('#typed').value.split(' ').every((x) => Math.abs(x) === 400)"))
    click("#negate")
    b.until("document.querySelector('#hand-answer .verdict b')?.textContent === 'Refused: turned over'")
    fact("turned over", "swapped back it would say: cylinder 5, 12.34° to port." in text("#hand-answer .verdict"))
    b.js("document.querySelector('#tilt').value = '15.01'; document.querySelector('#telegram').requestSubmit()")
    b.until("document.querySelector('#made-state').textContent")
    fact("no such telegram", text("#made-state"), "There is no such telegram: the cylinder is 0 to 7, the tilt 0 to 15.00 degrees.")
    b.js("document.querySelector('#tilt').value = 'twelve'; document.querySelector('#telegram').requestSubmit()")
    fact("no tilt", text("#made-state"), "The tilt is a number of degrees such as 12.34.")
    click("#tab-words")
    fact("every word is explained", b.js("document.querySelectorAll('#terms dt').length === 13 && document.querySelectorAll('#refusals dt').length === 8"))
    fact("the page's own is named", "its own" in text("#view-words") and "not the library’s" in text("#loaded"))
    fact("the checksum", bool(re.search("SHA-256 [0-9a-f]{64}$", text("#made").strip())))
    click("#tab-capture")


def busy():
    """seconds of processor time that the page's own thread has taken: its workers have theirs"""
    return next(x["value"] for x in b.call("Performance.getMetrics")["metrics"] if x["name"] == "TaskDuration")


def long_walks():
    """a capture whose every walk takes long, a second or so: the page answers all the while, since its own thread has none of them"""
    b.call("Performance.enable", timeDomain="threadTicks")
    turn, before = b.js("desk.capture.turn"), busy()
    b.choose_file("#chosen", MADE / "noise.bin")
    b.until(f"desk.capture.turn > {turn} && desk.capture.state.records === 40")
    fact("it is still reading", b.js("desk.capture.state.phase === 'reading' && !document.querySelector('#progress').hidden"))
    for number in 30, 20, 10:
        go(str(number))
        fact(f"record {number} while it reads", text("#detail h2"), f"Record {number}")
    click("#tab-hand")
    fact("another view while it reads", not hidden("#view-hand"))
    click("#tab-capture")
    b.until("desk.capture.state.done >= 4", 120)
    fact("four walks by its worker", b.js("desk.capture.state.swept.visits.slice(0, 4).every((x) => x >= 200000)"))
    fact("and none of its own", busy() - before < 1.0 or busy() - before)
    # another capture takes over at once
    opened(lambda: b.choose_file("#chosen", MADE / "sample.bin"))
    fact("opened over it", text("#file"), "sample.bin: 300 records, 14,700 bytes")
    fact("and nothing of the old one", b.js("desk.capture.state.swept.kind.every((x) => x === 0x52)"))


def while_reading():
    """what is begun while a capture is read: all of it is read, all of it is written, and nothing of it outlives the capture"""
    load(MADE / "telegrams.bin")
    once = [line.split(" ", 1)[1] for line in save_answers().split("\n")[:-2]]
    (MADE / "long.bin").write_bytes((MADE / "telegrams.bin").read_bytes() * 20)
    b.choose_file("#chosen", MADE / "long.bin")
    phase, label = b.until("""(() => { const { state } = desk.capture, tilts = document.querySelector('#save-tilts');
        if (state.name !== 'long.bin' || !state.as[0x52] || state.done < 6000) return null;
        document.querySelector('#save-text').click();
        tilts.click();
        return [state.phase, tilts.textContent]; })()""")
    fact("it is still reading", phase, "reading")
    fact("the table waits, and says so", bool(re.fullmatch(r"Reading first, \d+ %", label)))
    b.until("desk.capture.state.phase === 'read'", 60)
    fact("all is read", b.js("desk.capture.state.done"), 120000)
    refused = 20 * sum("refused" in line for line in once)
    expected = [f"{w} {line}" for w, line in enumerate(once * 20)] + [f"{120000 - refused} read, {refused} refused", ""]
    fact("all answers", b.saved_file("long.txt").split("\n") == expected)
    table = b.saved_file("long-tilts.csv").split("\n")
    fact("all tilts", [len(table), table[-2].split(",")[0]], [120002, "119999"])
    fact("both may be saved again", b.js("['#save-text', '#save-tilts'].map((x) => document.querySelector(x)).map((x) => x.textContent + x.disabled).join()"),
         "Save answersfalse,Save tiltsfalse")
    # what is written of a capture ends with it
    b.choose_file("#chosen", MADE / "noise.bin")
    b.until("desk.capture.state.name === 'noise.bin' && desk.capture.state.phase === 'reading'")
    click("#save-text")
    fact("writing", text("#save-text"), "Writing, 0 %")
    opened(lambda: b.choose_file("#chosen", MADE / "sample.bin"))
    fact("another one is not being written", b.js("document.querySelector('#save-text').textContent + document.querySelector('#save-text').disabled"),
         "Save answersfalse")
    fact("and can be", save_answers().endswith(" refused\n"))
    # a large file that is opened first, and a small one
    with open(MADE / "large.bin", "wb") as f:
        f.truncate(400 << 20)
    b.choose_file("#chosen", MADE / "large.bin")
    b.choose_file("#chosen", MADE / "sample.bin")
    time.sleep(2.5)
    fact("the last one opened is open", [text("#file"), hidden("#notice")], ["sample.bin: 300 records, 14,700 bytes", True])
    # a file that is gone
    (MADE / "gone.bin").write_bytes((MADE / "telegrams.bin").read_bytes())
    load(MADE / "gone.bin")
    os.remove(MADE / "gone.bin")
    go("5000")
    b.until("desk.capture.state.phase === 'none'")
    fact("a file that is gone", [text("#notice b"), text("#file")], ["This file cannot be read.", "No capture is open."])
    os.remove(MADE / "large.bin")
    os.remove(MADE / "long.bin")


def twenty_million():
    """as many records as the page takes, sorted, and the page answers all the while"""
    load(MADE / "sample.bin")
    worst = b.js("""new Promise((go) => {
        const { capture } = desk, { state } = capture, n = 20000000;
        for (const name of Object.keys(state.swept)) state.swept[name] = new state.swept[name].constructor(n);
        for (let w = 0; w < n; w++) state.swept.sure[w] = (w * 7919) % 1001;
        state.swept.kind.fill(0x52);
        Object.assign(state, { records: n, rows: n, done: n });
        let last = performance.now(), worst = 0;
        const timer = setInterval(() => {
            const now = performance.now();
            worst = Math.max(worst, now - last);
            last = now;
            if (!state.listed || capture.lists.work) return;
            clearInterval(timer);
            go(worst);
        }, 5);
        document.querySelector('#order').click();
    })""")
    print(f"20,000,000 records sorted; the longest pause was {worst:.0f} ms")
    fact("no long pause", worst < 500)
    fact("sorted", b.js("""(() => { const { listed, swept } = desk.capture.state;
        for (let i = 1; i < listed.length; i++) {
            const a = listed[i - 1], b = listed[i];
            if (swept.sure[a] > swept.sure[b] || (swept.sure[a] === swept.sure[b] && a >= b)) return i;
        }
        return listed.length; })()"""), 20000000)
    click("#order")
    load(MADE / "sample.bin")


def kept_page():
    """a page that the browser saved with a capture open in it opens as the empty page"""
    load(MADE / "torn.bin")
    go("50")
    chosen()
    click("#tab-words")
    with open(MADE / "kept.html", "w", encoding="utf-8") as f:
        f.write("<!doctype html>\n" + b.js("document.documentElement.outerHTML"))
    before = len(b.events)
    b.open((MADE / "kept.html").as_uri())
    b.until("document.documentElement.dataset.ready && desk.capture")
    fact("a page that was kept is empty", b.js("document.querySelector('#page').innerHTML") == fresh)
    # its old bars and columns have styles of their own, which the policy refuses: all that it complains of
    fact("nothing else", [x for x in b.faults(before) if "inline style" not in x], [])
    del b.events[before:]
    click("#sample")
    b.until("desk.capture.state.phase === 'read'")
    fact("and works", text("#file"), "sample.bin: 300 records, 14,700 bytes")
    b.open(PAGE.as_uri())
    b.until("document.documentElement.dataset.ready")
    os.remove(MADE / "kept.html")


def mixed():
    load(MADE / "mixed.bin")
    fact("plain words are guessed", b.js("document.querySelector('#as-52-word').checked"))
    go(str(b.js("desk.capture.state.swept.kind.findIndex((x, w) => x === 0x84 && !desk.capture.state.swept.refusal[w])")))
    chosen()
    fact("a word of 256", b.js("document.querySelectorAll('#detail .bar').length === 256 && document.querySelectorAll('#detail .cell').length === 512"))
    go(str(b.js("desk.capture.state.swept.refusal.indexOf(7)")))
    chosen()
    fact("a tie", text("#detail .verdict b"), "Refused: tied")


def appearance():
    colors = "['#counts', '#list', '#detail'].map((x) => getComputedStyle(document.querySelector(x)).color).join()"
    load(MADE / "telegrams.bin")
    go("1234")
    chosen()
    light = b.js(colors)
    b.media(dark=True)
    fact("dark is another page", b.js(colors) != light)
    fact("and dark", b.js("getComputedStyle(document.body).backgroundColor"), "rgb(20, 24, 30)")
    b.media(kind="print")
    fact("one record on paper", hidden("#list") and hidden("header") and not hidden("#detail .picture"))
    fact("on white", b.js("getComputedStyle(document.body).backgroundColor"), "rgb(255, 255, 255)")
    b.media()
    for wide in 700, 400:
        b.size(wide, 900)
        fact(f"nothing hangs over at {wide} pixels", b.js("document.documentElement.scrollWidth <= innerWidth"))
        fact(f"rows at {wide} pixels", bool(rows()))
    b.size(1360, 900)


CLIPPED = """(() => {
    const box = document.querySelector('#list').getBoundingClientRect(), right = box.left + document.querySelector('#list').clientWidth;
    const rows = [...document.querySelectorAll('#rows .row:not([hidden])')].filter((x) => x.getBoundingClientRect().top < box.bottom - 1);
    if (rows.length < 3) return 'rows: ' + rows.length;
    for (const row of [document.querySelector('.row.head'), ...rows]) {
        for (const cell of row.children) {
            const there = cell.checkVisibility(), at = cell.getBoundingClientRect();
            if (!there && /number|answer|sure|gap/.test(cell.className)) return 'hidden: ' + cell.className;
            if (there && cell.scrollWidth > cell.clientWidth) return 'clipped: ' + cell.className + ' ' + cell.textContent;
            if (there && (at.right > right + 0.5 || at.left < box.left)) return 'outside: ' + cell.className + ' ' + cell.textContent;
            if (there && at.bottom > row.getBoundingClientRect().bottom + 1) return 'below: ' + cell.className;
        }
    }
    return document.documentElement.scrollWidth <= innerWidth ? 'whole' : 'the page hangs over';
})()"""
WIDTHS = sorted({*range(360, 1921, 120), 390, 619, 620, 621, 1019, 1020, 1021, 1024, 1075, 1129, 1130, 1360, 1366, 1920})


def widths():
    """the side of a tilt is never cut off: at every width number, tilt with its side, sureness and gap are there and whole"""
    whole = lambda wide: (b.size(wide, 900), rows(), b.js(CLIPPED))[2]
    load(MADE / "telegrams.bin")
    go("1234")
    fact("telegrams", {wide: got for wide in WIDTHS if (got := whole(wide)) != "whole"}, {})
    fact("a starboard and a port are among them", b.js("['starboard', 'port'].every((x) => document.querySelector('#rows').textContent.includes(x))"))
    click("#show-turned")
    fact("turned over", {wide: got for wide in WIDTHS[::4] if (got := whole(wide)) != "whole"}, {})
    # numbers of eight digits
    b.size(1360, 900)
    click("#show-all")
    b.js("""{
        const message = { carried: 'telegram', refusal: 0, cylinder: 7, direction: 0, tilt: 1500 };
        desk.capture.fromAnswer = () => ({ first: 0x52, refusal: 0, penalty: 65504, gap: 65504, sure: 1000, message });
        Object.assign(desk.capture.state, { rows: 20000000, records: 20000000, done: 0 });
        desk.capture.list.setCount(20000000, 19999900); }""")
    fact("the largest numbers", {wide: got for wide in WIDTHS[::2] if (got := whole(wide)) != "whole"}, {})
    fact("are there", b.js("['19,999,9', '65,504'].every((x) => document.querySelector('#rows').textContent.includes(x))"))
    fact("a row in two lines at 360", (b.size(360, 900), rows(), b.js("document.querySelector('.records').className"))[2].split()[1], "tall")
    b.js("delete desk.capture.fromAnswer")
    load(MADE / "mixed.bin")
    fact("words of all codes", {wide: got for wide in WIDTHS[::2] if (got := whole(wide)) != "whole"}, {})
    b.size(390, 900)
    load(MADE / "telegrams.bin")
    chosen()
    fact("numbers of bars that could not be read are left out", b.js("document.querySelectorAll('#detail .size').length"), 0)
    b.size(1024, 900)
    b.until("document.querySelectorAll('#detail .size').length === 32")
    fact("and all others can be read", b.js("""[...document.querySelectorAll('#detail .size')].every((x) => {
        const { width, height } = x.getBoundingClientRect();
        return Math.min(width, height) >= 9; })"""))
    b.size(1360, 900)


def one_verdict():
    """one count wherever there is one, one verdict for the eye and the ear"""
    load(MADE / "telegrams.bin")
    refused, turned, doubtful = b.js("['refused', 'turned over', 'doubtful'].map((x) => desk.capture.state.counts[x])")
    said = f"6,000 records: {refused} refused ({turned} turned over), {doubtful} doubtful"
    no_answer = refused - turned
    fact("the summary", text("#counts"), said)
    fact("the strip", b.js("document.querySelector('#strip').getAttribute('aria-label')").endswith(said))
    fact("the list", b.js("[...document.querySelectorAll('.tools .choice label:not([hidden])')].map((x) => x.textContent.trim()).join()"),
         f"All,Refused {refused},Turned over {turned},Doubtful {doubtful}")
    answers = save_answers()
    fact("the program's text", answers.endswith(f"{6000 - no_answer} read, {no_answer} refused\n"))
    click("#save-tilts")
    table = [line.split(",") for line in b.saved_file("telegrams-tilts.csv").split("\n")[1:-1]]
    fact("the table: refused", sum(x[7] == "" for x in table), no_answer)
    fact("the table: turned over", sum(x[1] == "13" and float(x[7]) >= 20 for x in table), turned)
    first = lambda test: next(int(x[0]) for x in table if test(x[1], float(x[7] or "nan")))
    for what, number in {
        "refused": first(lambda refusal, sure: sure != sure), "turned over": first(lambda refusal, sure: refusal == "13" and sure >= 20),
        "doubtful": first(lambda refusal, sure: refusal == "0" and sure < 2), "noise": first(lambda refusal, sure: refusal == "13" and sure < 20),
    }.items():
        go(str(number))
        chosen()
        shown = text("#detail .verdict b")
        row = b.js("document.querySelector('#rows .row[aria-selected=true]').getAttribute('aria-label')")
        spoken = text("#said")
        seen, heard = {"refused": (r"Refused: tied", r"refused 7: tied"), "turned over": (r"Refused: turned over", r"telegram refused 13: turned over"),
                       "noise": (r"No telegram: noise", r"doubtful: no telegram \(13\)"),
                       "doubtful": (r"Cylinder \d, \d+\.\d\d° to (port|starboard)", r"doubtful: cylinder \d, \d+\.\d\d° to (port|starboard)")}[what]
        fact(f"{what}: seen", bool(re.fullmatch(seen, shown)) or shown)
        fact(f"{what}: heard", bool(re.fullmatch(rf"Record {number:,}: {heard}\.", spoken)) or spoken)
        fact(f"{what}: heard in the list", row.startswith(spoken[:-1]))
        if what == "refused":
            fact("its number in the text", f"\n{number} refused 7\n" in answers)


def typed_wrong():
    """limits, numbers and keys that a person may type"""
    limit = lambda value: b.js("{ const limit = document.querySelector('#limit'); limit.value = '%s'; limit.dispatchEvent(new Event('input')) }" % value)
    limit("0")
    fact("a limit of 0 is 0", [b.js("desk.capture.limit"), b.js("desk.capture.state.counts.doubtful")], [0, 0])
    limit("")
    fact("no limit is the one before", b.js("desk.capture.limit"), 0)
    limit("20")
    go("12")
    for wrong in "1.5", "1,5", "4,00", "1e3", "12 34", "":
        go(wrong)
        fact(f"no record: {wrong}", [text("#notice b"), b.js("desk.capture.state.chosen")], ["There is no such record.", 12])
    for right in "1,234", "1.234", "1 234", " 1234 ":
        go(right)
        fact(f"record {right}", b.js("desk.capture.state.chosen"), 1234)
    click("#tab-words")
    b.js("document.activeElement.blur()")
    for key in "gnp":
        b.key(key)
        fact(f"{key} does nothing where it is not seen", [b.js("desk.capture.state.chosen"), hidden("#view-words")], [1234, False])
    click("#tab-capture")
    # a name that reads from right to left stays a name
    odd = "\u202etxt.\u05d0\u05d1.bin"
    (MADE / odd).write_bytes((MADE / "sample.bin").read_bytes())
    load(MADE / odd)
    fact("a name is isolated", b.js("document.querySelector('#file bdi').textContent"), odd)
    fact("and what follows stands after it", b.js("""(() => { const line = document.querySelector('#file'), range = document.createRange();
        range.selectNode(line.lastChild);
        return range.getBoundingClientRect().left >= line.querySelector('bdi').getBoundingClientRect().right - 1; })()"""))
    os.remove(MADE / odd)
    # RM(2,2)
    (MADE / "no-telegrams.bin").write_bytes(bytes.fromhex("22064f9c064f9c") * 3)
    load(MADE / "no-telegrams.bin")
    fact("no chooser without records that may carry messages", [b.js("desk.capture.state.records"), hidden("#messages")], [3, True])
    os.remove(MADE / "no-telegrams.bin")


def small():
    """a capture of three telegrams: each has a dot, to starboard above the line and to port below it"""
    load(MADE / "telegrams.bin")
    (MADE / "three.bin").write_bytes(three())
    load(MADE / "three.bin")
    b.js("desk.capture.state.chosen = -1; desk.capture.redraw()")
    b.until("!desk.capture.frame")
    dots = b.js("""(() => { const c = document.querySelector('#plot'), pen = c.getContext('2d'), { swept } = desk.capture.state;
        return [0, 1, 2].map((w) => {
            const x = desk.capture.plots.plot.x(w), [r, g, blue] = getComputedStyle(document.documentElement).getPropertyValue('--c' + swept.cylinder[w])
                .trim().match(/\\w\\w/g).map((y) => parseInt(y, 16));
            const d = pen.getImageData(x - 4, 0, 8, c.height).data;
            let many = 0, sum = 0;
            for (let i = 0; i < d.length; i += 4) if (d[i] === r && d[i + 1] === g && d[i + 2] === blue) { many++; sum += Math.floor(i / 4 / 8); }
            return [many, sum / many < desk.capture.plots.plot.y(0) ? 'starboard' : 'port', swept.direction[w] ? 'port' : 'starboard'];
        }); })()""")
    fact("dots", [many >= 9 for many, _, _ in dots], [True, True, True])
    fact("starboard up", [up for _, up, _ in dots], [side for _, _, side in dots])
    fact("both sides", {side for _, _, side in dots}, {"port", "starboard"})
    os.remove(MADE / "three.bin")


def three():
    """three sure telegrams of a stored capture, to both sides"""
    data = (MADE / "telegrams.bin").read_bytes()
    sides = b.js("""(() => { const { direction, sure, tilt } = desk.capture.state.swept;
        return [0, 1].map((d) => tilt.findIndex((t, w) => t > 100 && sure[w] > 500 && direction[w] === d)); })()""")
    record = lambda w: data[49 * w:49 * (w + 1)]
    return record(sides[0]) + record(sides[1]) + record(sides[0])


def rods():
    """rod positions beside tilts, on one link: in the list, the panel and a plot of their own; never together with telegrams of their length"""
    load(MADE / "rods.bin")
    fact("both kinds are guessed", [b.js(f"document.querySelector('#as-{x}-message').checked") for x in ("41", "52")], [True, True])
    fact("and said to be guesses", [text(f"#guess-{x}").startswith("guessed by this page: ") for x in ("41", "52")], [True, True])
    fact("the first rows", [x.split("|")[1] for x in rows()[:3]], ["RM(1,4)", "RM(1,4)", "RM(2,5)"])
    fact("a position", bool(re.fullmatch(r"rod \d+", rows()[0].split("|")[2])))
    fact("all positions", b.js("""(() => { const { swept } = desk.capture.state; let wrong = 0;
        swept.kind.forEach((kind, w) => { const at = Math.round(7.5 + 7.4 * Math.sin(9 * w / 1500));
            if (kind === 0x41 && swept.message[w] === 0 && swept.sure[w] >= 200 && swept.position[w] !== at) wrong++; });
        return wrong; })()"""), 0)
    go("0")
    chosen()
    fact("the verdict", text("#detail .verdict b"), "Rod position 8")
    fact("heard", text("#said"), "Record 0: rod position 8.")
    fact("the runner-up in words", bool(re.match(r"Rod position \d+\. |No position\. ", b.js("document.querySelectorAll('#detail .facts dd')[1].textContent"))))
    w = b.js("desk.capture.state.swept.kind.findIndex((kind, w) => kind === 0x41 && w > 1060)")
    go(str(w))
    chosen()
    fact("turned over", text("#detail .verdict b"), "Refused: turned over")
    fact("swapped back", bool(re.search(r"it would say: rod position \d+\.", text("#detail .verdict"))))
    fact("two plots", [hidden("#plot"), hidden("#rods")], [False, False])
    fact("beside each other", b.js("(() => { const [a, b] = ['plot', 'rods'].map((x) => document.getElementById(x).getBoundingClientRect());"
                                   " return b.left > a.right && Math.abs(a.top - b.top) < 1; })()"))
    fact("higher positions are drawn higher", b.js("desk.capture.plots.rods.y(15) < desk.capture.plots.rods.y(0)"))
    b.js("document.querySelector('#rods').focus()")
    b.key("ArrowRight")
    fact("the plot's arrows", b.js("desk.capture.state.chosen"), w + 1)
    click("#as-41-word")
    fact("as plain words", [hidden("#rods"), rows()[0].split("|")[2] != ""], [True, True])
    load(MADE / "rivals.bin")
    fact("of two that cannot both be, telegrams", [b.js(f"document.querySelector('#as-{x}-message').checked") for x in ("51", "52")], [False, True])
    click("#as-51-message")
    fact("both cannot be", text("#notice b"), "RM(1,5) as rod positions and RM(2,5) as telegrams cannot both be.")
    fact("and it says why", "Every rod position is also the word of a telegram of its length" in text("#notice span"))
    fact("nothing has changed", [b.js(f"document.querySelector('#as-{x}-message').checked") for x in ("51", "52")], [False, True])
    click("#as-52-word")
    click("#as-51-message")
    fact("one of them can", [b.js(f"document.querySelector('#as-{x}-message').checked") for x in ("51", "52")], [True, False])
    fact("as positions", rows()[-1].split("|")[2] != "" and b.js("desk.capture.rowText(40).answer"), "rod 0")


def forced_colors():
    """with the system's own colors the chosen row, tab and choice, the bars and the key can be told apart"""
    load(MADE / "telegrams.bin")
    b.media(forced=True)
    color = lambda selector: b.js(f"getComputedStyle(document.querySelector('{selector}')).backgroundColor")
    go("17")
    chosen()
    fact("the chosen row", color("#rows .row[aria-selected=true]") != color("#rows .row[aria-selected=false]"))
    fact("the chosen tab", color("[role=tab][aria-selected=true]") != color("[role=tab][aria-selected=false]"))
    fact("the chosen kind", color("#show-all + span") != color("#show-refused + span"))
    fact("the bars", color("#rows .meter") != color("#rows .meter b"))
    fact("the key", len({color(f"#cylinders .c{c}") for c in range(3)}), 3)
    b.media()


def million():
    """a million records: listed at once, any record at once, all of them in seconds"""
    turn, begun = b.js("desk.capture.turn"), time.time()
    b.choose_file("#chosen", MADE / "million.bin")
    b.until(f"desk.capture.turn > {turn} && desk.capture.state.records === 1000000")
    listed = time.time() - begun
    go("40,000")
    fact("record 40,000 of a million", chosen(), "Record 40,000")
    found = time.time() - begun - listed
    b.until("desk.capture.state.phase === 'read'", 300)
    print(f"a million records: listed in {listed:.2f} s, record 40,000 {found:.2f} s later, all read {time.time() - begun:.1f} s after it was opened")
    click("#order")
    sure = [float(x.split("|")[3].split()[0]) for x in rows() if x.split("|")[3]]
    fact("the least sure of a million", sure == sorted(sure))
    click("#order")


def sealed():
    """the policy: whatever the page's code says, nothing goes out and no other code comes in"""
    fact("nothing thrown, nothing asked of a network", b.faults(), [])
    blocked = """new Promise((go) => {
        addEventListener('securitypolicyviolation', (e) => go(e.effectiveDirective), { once: true });
        %s;
        setTimeout(() => go('went'), 3000);
    })"""
    for what, code, by in (
        ("fetch", "fetch('https://example.org/').catch(() => 0)", "connect-src"),
        ("a beacon", "navigator.sendBeacon('https://example.org/', 'x')", "connect-src"),
        ("a socket", "try { new WebSocket('wss://example.org/') } catch {}", "connect-src"),
        ("an image", "new Image().src = 'https://example.org/x.png'", "img-src"),
        ("a script", "{ const s = document.createElement('script'); s.textContent = 'window.got = 1'; document.body.append(s); }", "script-src-elem"),
        ("a form", "{ const f = document.createElement('form'); f.action = 'https://example.org/'; document.body.append(f); f.submit(); }", "form-action"),
    ):
        fact(f"{what} is blocked", b.js(blocked % code), by)
    fact("no script came in", b.js("window.got === undefined"))
    worker = """new Promise((go) => {
        const code = "fetch('https://example.org/').then(() => postMessage('went'), () => postMessage('blocked'))";
        const made = new Worker(URL.createObjectURL(new Blob([code])));
        made.onmessage = (e) => go(e.data);
    })"""
    fact("a worker's fetch is blocked", b.js(worker), "blocked")
    fact("nothing was asked of a network", [x for x in b.faults() if x.startswith("request: ")], [])


b = Chromium()
try:
    b.open(PAGE.as_uri())
    b.until("document.documentElement.dataset.ready")
    fresh = b.js("document.querySelector('#page').innerHTML")
    click("#sample")
    b.until("desk.capture.state.phase === 'read'")
    fact("the sample", text("#file"), "sample.bin: 300 records, 14,700 bytes")
    parts = [listing, keyboard, filters, drawing, saving, bad_files, by_hand, long_walks, while_reading, twenty_million, mixed, appearance,
             widths, one_verdict, typed_wrong, small, rods, forced_colors, kept_page]
    if (MADE / "million.bin").exists():
        parts.append(million)
    for part in [part for part in parts if part.__name__ in ONLY or not ONLY] + [sealed]:
        begun = time.time()
        try:
            part()
        except RuntimeError as fault:
            fact(part.__name__, str(fault), "no fault")
        print(f"{part.__name__}: {time.time() - begun:.1f} s", flush=True)
finally:
    b.close()
print(f"{passed} passed, {failed} failed")
sys.exit(failed != 0 or passed == 0)
