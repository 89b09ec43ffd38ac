"""What an inspector does: turns to readings, runs a session, opens links, and keeps what is found."""
import json
import xml.etree.ElementTree as ElementTree

from images import CHAIN, CHAIN_RULES, STOP, STOP_RULES, counted, record, scripts
from seen import NAMES


def readings(b):
    events, rules = [7] * 6, CHAIN_RULES
    b.load(grammar=CHAIN, record=record(events), names=b"")
    expected, seen = [" ".join(map(str, script)) for script in scripts(rules, events)], []
    while not seen or b.at("next").is_enabled():
        if seen:
            b.click("#next")
        seen.append(b.text("script"))
    b.check("all readings by next", seen, expected)
    b.click("#first")
    first = b.text("script")
    b.click("#last")
    last = b.text("script")
    b.click("#previous")
    b.check("first, last, previous", [first, last, b.text("script")], [expected[0], expected[-1], expected[-2]])
    b.type("k", "17")
    b.check("jump", b.text("script"), expected[17])
    b.js("document.getElementById('words').parentElement.open = true")
    b.check("every node in words", b.until(lambda: len(b.all("#words li")), 11), 11)
    b.check("in words", b.all("#words li > span")[0][:45], "symbol 0, events 1 to 6: symbol 0 up to event")
    b.click("#two")
    b.type("other", "3")
    own, other = [set(b.all(f"#{tree} .node.differs", "data-node")) for tree in ("tree", "otherTree")]
    b.check("two side by side", [b.text("otherScript"), bool(own), bool(other), b.text("differ")[:14]], [expected[3], True, True, "They differ in"])
    unequal = sum(x != y for x, y in zip(expected[17].split(), expected[3].split()))
    b.check("differing words of the scripts", [len(b.all("#script mark")), len(b.all("#otherScript mark"))], [unequal, unequal])
    own, other = [{node.split(" ", 1)[1] for node in b.all(f"#{tree} .node", "data-node")} for tree in ("tree", "otherTree")]
    b.check("both are lit in the chart", [set(b.all("#chart .cell.lit", "data-cell")), set(b.all("#chart .cell.other", "data-cell"))],
            [own, other - own])
    b.type("other", "17")
    b.check("the same twice", [b.text("differ"), b.all("#tree .differs")], ["The same reading twice.", []])
    b.click("#two")
    b.js("document.getElementById('pasted').closest('details').open = true")
    for text, answer in ((expected[30], "Reading 30 of this record."), ("1 2 3", "No reading of this record."),
                         ("x", "is not a word of a script"), (expected[30][:-1] + "9", "No reading of this record.")):
        b.type("pasted", text)
        b.click("#find")
        b.check(f"pasted {text[:12]}", answer in b.text("found"))
    b.type("pasted", expected[30])
    b.click("#find")
    b.click("#found button")
    b.check("show it", b.text("script"), expected[30])
    # thirty links: the last reading, in which every left part is as long as it can be, is far behind the limit
    b.load(record=record([7] * 30))
    b.type("pasted", " ".join([f"1 {x}" for x in range(29, 0, -1)] + [f"0 {x}" for x in range(1, 31)]))
    b.click("#find")
    b.check("a script behind the limit", b.text("found"), "A reading of this record; its number is 4,294,967,295 or more, and cannot be asked for.")


def session(b):
    b.load(grammar=STOP, record=record([1, 2, 3]), names=NAMES)
    told_after = []
    for event in (1, 2, 3):
        b.click(f'#events [data-event="{event}"]')
        told_after.append(b.text("soFar"))
    b.check("verdicts after each", [text.split(". ")[0] for text in told_after],
            ["After 1 event: not admitted so far", "After 2 events: not admitted so far", "After 3 events: admitted so far"])
    b.check("firings", [text.split("with ")[1] for text in told_after],
            ["1 firing; 1 firing in all.", "1 firing; 2 firings in all.", "4 firings; 6 firings in all."])
    b.check("the column is lit", sorted(b.all("#sessionChart .came", "data-cell")), ["0 3", "1 3", "2 3"])
    b.check("the session's chart is the judgement's", b.cells("#sessionChart"), b.cells())
    b.click("#takeBack")
    b.check("taken back", [b.text("soFar")[:14], sorted(b.all("#sessionChart .came", "data-cell"))], ["After 2 events", ["0 2", "1 2"]])
    b.until_shown(lambda: b.click("#useRecord"))
    b.check("made the record", [b.text("eventCount"), b.text("soFar")[:14]], ["2", "After 2 events"])
    b.click("#takeBack")
    b.click("#takeBack")
    b.click("#takeBack")
    b.check("nothing to take back", b.text("soFar").startswith("Refused, 18:"))
    b.type("event", " ".join(["1 2 3"] * 11), enter=True)
    b.check("full", [b.text("soFar")[:12], len(b.all("#verdicts li"))], ["Refused, 17:", 32])
    b.click("#anew")
    b.check("anew", [b.text("soFar"), len(b.all("#verdicts li"))], ["No events yet.", 0])


def link(b):
    b.load(grammar=CHAIN, record=record([7] * 6), names="0 Kettenstück é\nevent 7 link & more".encode())
    b.type("k", "11")
    b.click("#two")
    b.type("other", "5")
    b.choose("symbol", "0 Kettenstück é")
    b.click('#chart [data-cell="1 4"]')
    b.check("the link has the view", b.until(lambda: "s=1-4" in b.js("return location.hash"), True))

    def look():
        return [*map(b.text, ("verdict", "script", "otherScript", "stretch", "sumGrammar", "sumRecord")), b.at("symbol").get_attribute("value")]

    before, hash_ = look(), b.js("return location.hash")
    b.open(hash_)
    b.check("a link opens the same view", look(), before)
    b.until_shown(lambda: b.js("location.hash = arguments[0]", hash_.replace("k=11", "k=12")))
    b.check("a link put in by hand", b.text("readingTitle"), "Reading 12")
    b.until_shown(lambda: b.js("location.hash = '#g=%E0%A4%A'"))
    b.check("a link that is not understood", "not understood" in b.text("inputTold"))
    for wrong in ("#g=!!!", "#nonsense", "#g=RVNH&k=99999999999&s=9-1&a=77", "#g=%E0%A4%A"):
        b.open(wrong)
        b.check(f"link {wrong}", b.text("verdict") != "…")


def markup(b):
    """What others wrote is never markup."""
    bad = '<script>document.title="taken"</script><img src=x onerror=document.title="taken">'
    b.load(grammar=STOP, record=record([1, 2, 3]), names=f"0 {bad}\n1 <b>Stop</b>\nevent 1 </text>{bad}\n".encode())
    b.click('#chart [data-cell="0 3"]')
    b.click('#events [data-event="1"]')
    b.js("document.getElementById('tablePart').open = true")
    b.drop("<img src=x>.events", record([1, 2, 3]))
    b.check("names stay text", [b.driver.title, b.all("img, section script, section b"), "<b>Stop</b>" in b.text("table")],
            ["Record inspector", [], True])
    b.click("#saveChart")
    ElementTree.fromstring(b.saved("chart.svg"))
    b.js("document.getElementById('tablePart').open = false")


def keep(b):
    b.load(grammar=STOP, record=record([1, 2, 3] * 2), names=NAMES)
    b.click("#saveChart")
    svg = ElementTree.fromstring(b.saved("chart.svg"))
    space = "{http://www.w3.org/2000/svg}"
    b.check("chart as SVG", [len(svg.findall(f"{space}rect")), [x.text for x in svg.iter(f"{space}text")].count("Stop")], [21, 2])
    b.check("its checksums", b.text("sumRecord") in svg.find(f"{space}title").text and b.text("sumGrammar") in svg.find(f"{space}title").text)
    b.check("its style is in it", ".picture .cell" in svg.find(f"{space}style").text and "--step1" in svg.find(f"{space}style").text)
    b.click("#saveTree")
    svg = ElementTree.fromstring(b.saved("reading-0.svg"))
    b.check("tree as SVG", len([x for x in svg.iter(f"{space}g") if x.get("data-node")]), 11)
    b.click("#saveAll")
    kept, table = json.loads(b.saved("record.json")), counted(STOP_RULES, [1, 2, 3] * 2)
    words = [str(sum(1 << a for a in table[i, k])) for k in range(1, 7) for i in range(k)]
    b.check("all as JSON", [kept[name] for name in ("verdict", "chart", "events", "readings")],
            ["admitted", words, [1, 2, 3] * 2, [{"number": 0, "script": scripts(STOP_RULES, (1, 2, 3) * 2)[0]}]])
    b.check("counts in JSON", kept["counts"], {"readings": 1, "orMore": False, "events": 6, "findings": "13", "firings": "13"})
    b.check("checksums in JSON", [kept["grammar"], kept["record"]], [
        {"sha256": b.text("sumGrammar"), "ofFirst": 31, "bytes": 31}, {"sha256": b.text("sumRecord"), "ofFirst": 12, "bytes": 12}])
    paper = b.driver.execute_cdp_cmd("Page.printToPDF", {})["data"]
    b.check("a page for paper", len(paper) > 20000)
    b.js("window.print = () => { window.printed = true; }")
    b.click("#print")
    b.check("print", b.js("return window.printed"))


def heard(b):
    """Everything that can be used has a name, and what is drawn is told."""
    nodes = b.driver.execute_cdp_cmd("Accessibility.getFullAXTree", {})["nodes"]
    kinds = ("button", "textbox", "combobox", "checkbox", "spinbutton", "image", "img")
    used = [node for node in nodes if not node["ignored"] and node["role"]["value"] in kinds]
    nameless = [node["role"]["value"] for node in used if not node.get("name", {}).get("value", "").strip()]
    b.check(f"all of {len(used)} things have a name", [len(used) > 30, nameless], [True, []])


def narrow(b):
    for width in (1300, 390):
        b.colours("light", width)
        b.check(f"nothing wider than {width}", b.js("return document.documentElement.scrollWidth <= innerWidth"))
    grounds = []
    for scheme in ("dark", "light"):
        b.colours(scheme)
        grounds.append(b.js("return getComputedStyle(document.body).backgroundColor"))
    b.check("dark and light", grounds, ["rgb(20, 24, 29)", "rgb(246, 247, 245)"])
