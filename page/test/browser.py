"""A page in Chromium, with the words that a test needs to look at it and to use it."""
import base64
import json
import pathlib
import shutil
import tempfile
import time

from selenium import webdriver
from selenium.webdriver.chrome.service import Service
from selenium.webdriver.common.by import By
from selenium.webdriver.common.keys import Keys
from selenium.webdriver.support.ui import Select, WebDriverWait


def chromium(folder, width=1300, height=1000):
    options = webdriver.ChromeOptions()
    for word in ["--headless=new", f"--window-size={width},{height}", "--no-sandbox", "--disable-dev-shm-usage"]:
        options.add_argument(word)
    options.add_experimental_option("prefs", {"download.default_directory": str(folder), "download.prompt_for_download": False})
    options.set_capability("goog:loggingPrefs", {"browser": "ALL", "performance": "ALL"})
    return webdriver.Chrome(service=Service("/usr/bin/chromedriver"), options=options)


class Browser:
    def __init__(self, page, wasm):
        self.page = pathlib.Path(page).resolve().as_uri()
        self.wasm = pathlib.Path(wasm).read_bytes()
        self.folder = pathlib.Path(tempfile.mkdtemp())
        self.driver = chromium(self.folder)
        self.results, self.requests = [], []

    def check(self, what, found, expected=True):
        self.results.append(found == expected)
        unequal = f": {repr(found)[:600]}, not {repr(expected)[:600]}"
        print(f"ok: {what}" if self.results[-1] else f"FAILED: {what}{unequal}", flush=True)

    def open(self, link=""):
        self.driver.get("about:blank")
        self.driver.get(self.page + link)
        WebDriverWait(self.driver, 10).until(lambda driver: driver.find_element(By.TAG_NAME, "body").get_attribute("data-ready"))

    def js(self, text, *words):
        return self.driver.execute_script(text, *words)

    def spent(self, act):
        """How many milliseconds of its processor the page takes for this, with the layout that follows; other programs do not count."""
        def so_far():
            metrics = self.driver.execute_cdp_cmd("Performance.getMetrics", {})["metrics"]
            return next(metric["value"] for metric in metrics if metric["name"] == "TaskDuration")

        self.driver.execute_cdp_cmd("Performance.enable", {"timeDomain": "threadTicks"})
        before = so_far()
        act()
        self.js("document.body.offsetHeight")
        return 1000 * (so_far() - before)

    def counted(self, image, record, symbols):
        """How many milliseconds of its processor the page's thread takes to fill the count table of a record, by an instance of the services of its own."""
        self.js("""const [wasm, image, record] = [...arguments].slice(0, 3).map(text => Uint8Array.from(atob(text), one => one.charCodeAt(0)));
            const services = new WebAssembly.Instance(new WebAssembly.Module(wasm), {}).exports, { memory } = services;
            const from = services.__heap_base.value, at = [0, 4096, 8192, 8200].map(one => from + one), words = BigInt(arguments[3]);
            memory.grow(Math.ceil((8208 + 4 * arguments[3]) / 65536) + 1);
            new Uint8Array(memory.buffer).set(image, at[0]);
            new Uint8Array(memory.buffer).set(record, at[1]);
            window.countAgain = () => services.reader_count(at[0], BigInt(image.length), at[1], BigInt(record.length / 2), from + 8208, words, at[2], at[3]) & 0xff;""",
            *(base64.b64encode(one).decode() for one in (self.wasm, image, record)), symbols * (len(record) // 2) * (len(record) // 2 + 1) // 2)
        self.check("the services count by themselves", self.js("return window.countAgain()"), 0)
        self.js("for (let again = 0; again < 3; again++) window.countAgain();")  # the engine compiles once more what it has seen to take long
        return lambda: self.spent(lambda: self.js("window.countAgain()"))

    def until(self, found, expected):
        """What is found in the end: a check of what comes only with the next frame."""
        for _ in range(100):
            if found() == expected:
                break
            time.sleep(.05)
        return found()

    def at(self, name):
        return self.driver.find_element(By.ID, name)

    def text(self, name):
        return self.js("return document.getElementById(arguments[0]).textContent", name).strip()

    def all(self, selector, attribute=None):
        get = "e.textContent" if attribute is None else f"e.getAttribute({attribute!r})"
        return self.js(f"return [...document.querySelectorAll(arguments[0])].map(e => {get})", selector)

    def click(self, selector):
        element = self.driver.find_element(By.CSS_SELECTOR, selector)
        self.js("arguments[0].scrollIntoView({ block: 'center' })", element)
        element.click()

    def choose(self, name, words):
        Select(self.at(name)).select_by_visible_text(words)

    def type(self, name, text, enter=False):
        """As if pasted, and then left: the whole text at once."""
        self.js("""const element = document.getElementById(arguments[0]);
            element.value = arguments[1];
            element.dispatchEvent(new Event("change", { bubbles: true }))""", name, text)
        if enter:
            self.at(name).send_keys(Keys.ENTER)

    def shown(self):
        return int(self.js("return document.body.dataset.shown"))

    def until_shown(self, act):
        before = self.shown()
        act()
        WebDriverWait(self.driver, 20).until(lambda _: self.shown() > before)

    def file(self, name, data):
        path = self.folder / name
        path.write_bytes(data)
        return str(path)

    def load(self, **files):
        """By the file inputs: grammar=bytes, record=bytes, names=bytes."""
        for kind, data in files.items():
            self.until_shown(lambda: self.at(kind + "File").send_keys(self.file("own." + kind, data)))

    def drop(self, name, data):
        self.until_shown(lambda: self.js("""
            const data = new DataTransfer();
            data.items.add(new File([Uint8Array.from(atob(arguments[1]), c => c.charCodeAt(0))], arguments[0]));
            document.body.dispatchEvent(new DragEvent("drop", { dataTransfer: data, bubbles: true, cancelable: true }));
        """, name, base64.b64encode(data).decode()))

    def cells(self, where="#chart"):
        found = self.js("return [...document.querySelectorAll(arguments[0] + ' [data-cell]')].map(c => [c.dataset.cell, c.dataset.found])", where)
        return {tuple(map(int, cell.split())): list(map(int, symbols.split())) for cell, symbols in found}

    def saved(self, name):
        """A file that the page has saved; it is taken away, so that the next one has the same name."""
        path = self.folder / name
        for _ in range(100):
            if path.exists() and path.stat().st_size:
                text = path.read_text("utf-8")
                path.unlink()
                return text
            time.sleep(.05)
        return ""

    def colours(self, scheme, width=1300, height=1000):
        self.driver.execute_cdp_cmd("Emulation.setEmulatedMedia", {"features": [{"name": "prefers-color-scheme", "value": scheme}]})
        self.driver.execute_cdp_cmd("Emulation.setDeviceMetricsOverride", {"width": width, "height": height, "deviceScaleFactor": 1, "mobile": False})

    def picture(self, path, first="body", last="body"):
        """From the top of one thing to the foot of another, in the whole width."""
        width, top, foot = self.js("""const [first, last] = [...arguments].map(name => document.querySelector(name).getBoundingClientRect());
            return [innerWidth, first.top + scrollY, last.bottom + scrollY]""", first, last)
        clip = {"x": 0, "y": top, "width": width, "height": foot - top, "scale": 1}
        answer = self.driver.execute_cdp_cmd("Page.captureScreenshot", {"captureBeyondViewport": True, "clip": clip})
        pathlib.Path(path).write_bytes(base64.b64decode(answer["data"]))

    def complaints(self):
        return [entry["message"] for entry in self.driver.get_log("browser") if entry["level"] in ("SEVERE", "WARNING")]

    def asked(self):
        """Every address that was asked for, but for the page itself and what it has made."""
        for entry in self.driver.get_log("performance"):
            message = json.loads(entry["message"])["message"]
            if message["method"] in ("Network.requestWillBeSent", "Network.webSocketCreated"):
                self.requests.append(message["params"].get("request", message["params"])["url"])
        own = (self.page, "about:blank", "blob:", "data:,")
        return [url for url in self.requests if not url.startswith(own)]

    def end(self):
        self.driver.quit()
        shutil.rmtree(self.folder, ignore_errors=True)
        print(f"{sum(self.results)} passed, {len(self.results) - sum(self.results)} failed")
        return not self.results or not all(self.results)
