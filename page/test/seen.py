"""What an inspector sees: grammar and record, the verdict, refusals and the chart."""
import hashlib

from selenium.webdriver.common.keys import Keys

from images import CHAIN, CHAIN_RULES, LARGEST, LARGEST_EVENTS, QUIET, REFUSED, STOP, STOP_RULES, counted, firings, image, record, some_rules

NAMES = b"0 Shift\n1 Stop\n2 press\n3 tail\n4 relay\n5 reset\nevent 1 push\nevent 2 off\nevent 3 on\n"
LIMIT = 2 ** 32 - 1


def told(number):
    return f"{number:,}" + (" or more" if number == LIMIT else "")


def numbers(b):
    return [b.text(name) for name in ("total", "eventCount", "items", "firings")]


def compared(b, what, rules, events):
    """Verdict, numbers and every cell of what is shown, beside what the rules say."""
    table = counted(rules, events)
    total = min(LIMIT, table[0, len(events)].get(0, 0))
    expected = [told(total), str(len(events)), told(sum(map(len, table.values()))), told(firings(rules, events, table))]
    b.check(f"{what}: numbers", numbers(b), expected)
    b.check(f"{what}: verdict", b.text("verdict").startswith("Admitted" if total else "Not admitted"))
    b.check(f"{what}: every stretch with all that it is", b.cells(), {stretch: sorted(cell) for stretch, cell in table.items()})
    return table


def first_view(b):
    b.open()
    b.check("two stops: verdict", b.text("verdict"), "Admitted: the whole record is day.")
    compared(b, "two stops", STOP_RULES, [1, 2, 3, 1, 2, 3])
    b.check("both names in a cell", b.all('#chart [data-content="0 3"] text'), ["day", "stop"])
    b.check("script", b.text("script"), "3 3 5 1 0 1 6 2 1 2 2 3 4 4 0 4 6 5 1 5 2 6")
    b.check("checksums", [b.text("sumGrammar"), b.text("sumRecord")], [hashlib.sha256(x).hexdigest() for x in (STOP, record([1, 2, 3] * 2))])
    b.check("lit in the chart", sorted(b.all("#chart .cell.lit", "data-cell")), sorted(b.js(
        "return [...document.querySelectorAll('#tree [data-node]')].map(n => n.dataset.node.split(' ').slice(1).join(' '))")))
    b.choose("example", "quiet shift")
    b.check("no events: verdict", b.text("verdict"), "Admitted: a record without events is proper by this grammar.")
    b.check("no events: numbers", numbers(b), ["1", "0", "0", "0"])
    b.check("no events: reading", "quiet reading" in b.text("tree"))
    b.choose("example", "misspelt grammar")
    b.check("misspelt: refused", b.text("verdict").startswith("Refused, 15") and not b.at("chart").is_displayed())


def inputs(b):
    b.load(grammar=STOP, record=record([1, 2, 3]), names=NAMES)
    b.check("own files: verdict by name", b.text("verdict"), "Admitted: the whole record is Shift.")
    b.check("names of events", b.all("#chart .event text:not(.place)"), ["push", "off", "on"])
    b.drop("other.events", record([1, 2]))
    b.check("a dropped record", [b.text("verdict"), b.text("items")], ["Not admitted: the whole record is not Shift by any reading.", "2"])
    b.drop("chain.grammar", CHAIN)
    b.drop("chain.names", b"0 link\n")
    b.until_shown(lambda: b.type("typed", "7, 7 7\n7", enter=True))
    b.check("dropped grammar and names, typed events", [b.text("total"), b.text("verdict")], ["5", "Admitted: the whole record is link."])
    for wrong in ("7 x 7", "65536", "-1", "1.5"):
        b.type("typed", wrong, enter=True)
        b.check(f"typed {wrong}", "is not an event" in b.text("inputTold") and b.text("total") == "5")
    b.until_shown(lambda: b.type("names", "0 link\nnonsense\n64 high\n"))
    b.check("names that are not understood", b.text("namesTold").startswith("Lines 2, 3 are not understood"))


def sizes(b):
    """0, 1, 6, 20 and 96 events; the largest grammar."""
    b.load(grammar=CHAIN, record=b"")
    nothing = "Not admitted: the record has no events, and this grammar admits no quiet shift."
    b.check("CHAIN, 0 events", [b.text("verdict"), *numbers(b)], [nothing, "0", "0", "0", "0"])
    b.load(grammar=QUIET)
    b.check("CHAIN with the flag, 0 events", [b.text("verdict")[:9], *numbers(b)], ["Admitted:", "1", "0", "0", "0"])
    b.load(grammar=CHAIN)
    for count in (1, 6):
        b.load(record=record([7] * count))
        compared(b, f"CHAIN, {count}", CHAIN_RULES, [7] * count)
    rules = some_rules(3)
    for count in (20, 96):
        events = [(x * x + x // 3) % 4 for x in range(count)]
        b.load(grammar=image(*rules), record=record(events))
        table = compared(b, f"ten symbols, {count}", rules, events)
    near_names(b, image(*rules), events[:40], counted(rules, events[:40]))
    b.load(record=record(events))
    b.until_shown(lambda: b.type("names", ""))
    cell = max(table, key=lambda stretch: (len(table[stretch]), stretch))
    b.js("document.querySelector(`#chart [data-cell='${arguments[0]}']`).dispatchEvent(new MouseEvent('click', { bubbles: true }))", "%d %d" % cell)
    b.check("findings of a stretch and their derivations", b.all("#stretch td"),
            [word for a in sorted(table[cell]) for word in (f"symbol {a}", told(min(LIMIT, table[cell][a])))])
    b.check("its events are marked", b.all("#chart .event.within", "data-place"), [str(x) for x in range(cell[0] + 1, cell[1] + 1)])
    largest(b)


def near_names(b, grammar, events, table):
    """Beyond 20 events names stand in the cells that are seen, where they are asked for."""
    b.load(grammar=grammar, record=record(events), names=b"3 third\n")
    b.choose("cellsShow", "names")
    b.click('#chartZoom [data-zoom="read"]')
    b.js("document.getElementById('chart').scrollTop = 1e6")
    b.check("near: what is seen", b.until(lambda: len(b.all("#chart .content")) > 10, True))
    seen = b.js("""return [...document.querySelectorAll("#chart .content")].map(g =>
        [g.dataset.content, [...g.querySelectorAll("text")].map(t => t.textContent)])""")
    expected = [[cell, ["third" if a == 3 else str(a) for a in sorted(table[tuple(map(int, cell.split()))])]] for cell, _ in seen]
    b.check("near: all names of the cells that are seen", seen, expected)
    b.choose("cellsShow", "what fits")
    b.click('#chartZoom [data-zoom="fit"]')


# The limit of a turn to any reading is that of a machine whose processor takes so many milliseconds for the largest count table, in the page's thread.
# A slower one, or one that others slow down just then, has as much more for a turn as it takes longer for the table.
LARGEST_TABLE = 59


def largest(b):
    b.load(grammar=LARGEST)
    took = b.spent(lambda: b.load(record=record(LARGEST_EVENTS)))
    b.check(f"the largest chart within 2 s ({took:.0f} ms)", took < 2000)
    b.check("the largest: numbers", numbers(b), ["4,294,967,295 or more", "96", "297,984", "37,750,784"])
    b.check("the largest: every cell full", set(map(tuple, b.cells().values())), {tuple(range(64))})
    b.check("far off: colour alone", [len(b.all("#chart .content")), b.js("return document.querySelector('p.far').offsetHeight > 0")], [0, True])
    b.click('#chartZoom [data-zoom="read"]')
    marks = b.js("""return [...document.querySelectorAll("#chart .content")].map(g =>
        [...g.querySelectorAll("path")].map(p => p.getAttribute("d")).join("").split("M").length - 1)""")
    b.check("near: a mark for every finding", [len(marks) > 50, set(marks)], [True, {64}])
    b.choose("cellsShow", "names")
    b.check("too many for names", [b.all("#chart .content text"), b.text("tooMany")[:18]], [[], "More findings than"])
    b.choose("cellsShow", "what fits")
    b.click('#chartZoom [data-zoom="fit"]')
    times, count = [], b.counted(LARGEST, record(LARGEST_EVENTS), 64)
    for number in (4294967294, 1000, 2147483648, 3000000000, 123456789, 4000000000):
        before, spent, after = count(), b.spent(lambda: b.type("k", str(number))), count()
        times.append(spent / max(1, (before + after) / 2 / LARGEST_TABLE))
        b.check(f"reading {number}", [b.text("readingTitle"), len(b.text("script").split()), len(b.all("#tree .node"))],
                [f"Reading {number:,}", 382, 191])
    steps = [b.spent(lambda: b.js(f"document.getElementById('{way}').click()")) for way in ("next", "next", "previous", "next")]
    for what, spent, most in (("any", times, 100), ("the next", steps, 60)):
        b.check(f"to {what} reading within {most} ms ({', '.join(f'{one:.0f}' for one in spent)} ms)", min(spent) < most)


def refusals(b):
    b.load(names=b"# no names\n", record=record([1, 2, 3]))
    for number, damaged, where in REFUSED:
        b.load(grammar=damaged)
        b.check(f"refusal {number}", [b.text("verdict").startswith(f"Refused, {number}:"), where in b.text("fault"), b.text("help")[:12],
                                      b.at("chart").is_displayed()], [True, True, "What helps: ", False])
    b.load(names=NAMES, grammar=dict((number, damaged) for number, damaged, _ in REFUSED)[7])
    b.check("the rule at fault by names", b.text("where"), "rule 1: press → event push. It stands behind rule 0: press → event push.")
    b.load(grammar=STOP, record=record([1] * 97))
    b.check("refusal 8", [b.text("verdict")[:11], b.text("where")], ["Refused, 8:", "It has 97."])
    b.load(record=record([1] * 96) + b"\0")
    b.check("refusal 8 by one byte", b.text("verdict")[:11], "Refused, 8:")
    b.load(record=b"\1\0\2")
    b.check("refusal 14", [b.text("verdict")[:12], "3 bytes" in b.text("where")], ["Refused, 14:", True])
    b.load(record=record([1, 2, 3]))
    b.check("mended", b.text("verdict")[:8], "Admitted")
    huge = bytes(5 * 2 ** 20)
    b.load(record=huge)
    b.check("a record of 5 MB", [b.text("verdict")[:11], "2,621,440" in b.text("where"), "5,242,880" in b.text("inputTold")],
            ["Refused, 8:", True, True])
    b.load(grammar=STOP + huge)
    b.check("a grammar of 5 MB", [b.text("verdict")[:11], "5,242,911 bytes" in b.text("where")], ["Refused, 5:", True])
    b.at("namesFile").send_keys(b.file("huge.names", huge))
    b.check("names of 5 MB", b.until(lambda: "too long for names" in b.text("inputTold"), True))
    b.check("the link stays short", b.js("return location.hash.length") < 6000)


def chart(b):
    b.load(grammar=CHAIN, record=record([7, 7, 9, 7]))
    b.check("only stretches that lie in no other", b.all("#breaks li"), ["Events 1 to 2", "Event 4"])
    b.load(grammar=STOP, record=record([1, 2, 3, 9, 1, 2, 3]), names=NAMES)
    b.check("where it breaks", [b.all("#breaks li"), "No rule has the event at place 4 (9)." in b.text("breaks")],
            [["Events 1 to 3", "Events 5 to 7"], True])
    b.choose("symbol", "3 tail")
    b.check("the chosen symbol's stretches", [b.all("#chart rect.holds", "data-cell"), b.all("#breaks li")[2:]],
            [["1 3", "5 7"], ["Events 2 to 3", "Events 6 to 7"]])
    b.click('#chart [data-cell="0 3"]')
    b.check("a chosen stretch", b.all("#stretch td"), ["Shift", "1", "Stop", "1"])
    chosen = []
    for key in (Keys.ARROW_UP, Keys.ARROW_RIGHT, Keys.ARROW_DOWN, Keys.ARROW_DOWN, Keys.ARROW_LEFT):
        b.at("chart").send_keys(key)
        chosen += b.all("#chart rect.chosen", "data-cell")
    b.check("by keys", chosen, ["0 4", "1 5", "1 4", "1 3", "0 2"])
    b.js("document.getElementById('tablePart').open = true")
    b.choose("rows", "all stretches")
    b.check("the table has every stretch", b.until(
        lambda: [len(b.all("#table tr")), b.all("#table td:last-child").count("Shift (1), Stop (1)")], [28, 2]), [28, 2])
    b.click("#table tr:first-child button")
    b.check("a stretch from the table", b.all("#chart rect.chosen", "data-cell"), ["0 7"])
    b.js("document.getElementById('tablePart').open = false")
