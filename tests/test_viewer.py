"""Opens trails in viewer/index.html by a headless Chromium, and compares what is drawn with what the trails say.

The trails are those of the stock example, of two sweeps down one tree, of a script with its trace, and of two epochs. Each page is kept as FOLDER/NAME.png in the folder
that the environment variable PICTURES names, if there is one. Where there is no Chromium, these tests are skipped.
"""

import base64
import contextlib
import fcntl
import functools
import http.server
import json
import os
import pathlib
import select
import shutil
import subprocess
import tempfile
import threading

from running import PATIENCE, TOP, Hangs, before_program, fixture, tool, until

SWEEPS = [["sweep", [1]], ["sweep", [10]]]


class Quiet(http.server.SimpleHTTPRequestHandler):
    def log_message(self, *_):
        pass


class Browser:
    """A Chromium, spoken to over two pipes: each message is JSON and ends by a byte 0."""

    def __init__(self, program):
        to_browser, self.writing = os.pipe()
        self.reading, from_browser = os.pipe()
        words = ["--headless", "--no-sandbox", "--disable-gpu", "--hide-scrollbars", "--remote-debugging-pipe", "--window-size=1280,800"]

        def pipes():
            # Away from 3 and 4 first, since one of them may be in the place of the other.
            one, other = (fcntl.fcntl(it, fcntl.F_DUPFD, 10) for it in (to_browser, from_browser))
            os.dup2(one, 3), os.dup2(other, 4)
            before_program()()

        self.profile = tempfile.TemporaryDirectory()
        words.append(f"--user-data-dir={self.profile.name}")
        self.process = subprocess.Popen(
            [program, *words], preexec_fn=pipes, close_fds=False, stdin=subprocess.DEVNULL, stdout=subprocess.DEVNULL, stderr=subprocess.DEVNULL
        )
        os.close(to_browser), os.close(from_browser)
        self.rest, self.asked, self.session = b"", 0, None
        target = self.ask("Target.createTarget", url="about:blank")["targetId"]
        self.session = self.ask("Target.attachToTarget", targetId=target, flatten=True)["sessionId"]

    def ask(self, method, **params):
        self.asked += 1
        message = {"id": self.asked, "method": method, "params": params}
        if self.session:
            message["sessionId"] = self.session
        os.write(self.writing, json.dumps(message).encode() + b"\0")
        while True:
            while b"\0" not in self.rest:
                if not select.select([self.reading], [], [], PATIENCE)[0]:
                    raise Hangs(f"the browser hasn't answered {method} after {PATIENCE:.0f} s")
                more = os.read(self.reading, 1 << 16)
                if not more:
                    raise RuntimeError("the browser has ended")
                self.rest += more
            answer, _, self.rest = self.rest.partition(b"\0")
            answer = json.loads(answer)
            if answer.get("id") == self.asked:
                if "error" in answer:
                    raise RuntimeError(answer["error"])
                return answer["result"]

    def value(self, expression):
        """The value of an expression in the page, which may be a promise."""
        answer = self.ask("Runtime.evaluate", expression=expression, awaitPromise=True, returnByValue=True)
        if "exceptionDetails" in answer:
            raise RuntimeError(answer["exceptionDetails"])
        return answer["result"].get("value")

    def drawn(self, page, event=None, call=None):
        """What a page reports once its trail is drawn, with the sliders at these places."""
        self.ask("Page.navigate", url=page)
        self.value("new Promise((done) => { const look = () => document.readyState === 'complete' ? done(1) : setTimeout(look, 20); look(); })")
        self.value("opened")
        for name, at in (("event", event), ("call", call)):
            if at is not None:
                self.value(f"byId('{name}').value = {at}; byId('{name}').oninput()")
        # A picture that was asked for is drawn before the second of two frames.
        self.value("new Promise((done) => requestAnimationFrame(() => requestAnimationFrame(done)))")
        return json.loads(self.value("JSON.stringify(reported())"))

    def picture(self, path):
        path.write_bytes(base64.b64decode(self.ask("Page.captureScreenshot")["data"]))

    def end(self):
        self.process.terminate()
        with contextlib.suppress(subprocess.TimeoutExpired):
            self.process.wait(timeout=30)
        self.process.kill()
        self.profile.cleanup()


def facts(trail):
    """What a trail says: its locks, the frees with another record than was found, and the records that calls left."""
    held, changed, locks = {}, 0, 0
    left = {}
    for event in trail["events"]:
        if event[0] == "l":
            locks += 1
            held[event[2]] = event[3]
        elif event[0] == "f":
            changed += held[event[2]] != event[3]
            left.setdefault(event[1], {})[event[2]] = event[3]
    return locks, changed, left


def words(records):
    # The viewer shows eight fields, also of a trail whose records have four.
    return [[str(field) for field in record] + ["0"] * (8 - len(record)) for record in records]


def compare(tests, site, name, order, trace=False, epoch=None):
    browser, address, folder = site.browser, site.address, site.folder
    trail = json.loads((folder / f"{name}.json").read_text())
    page = f"{address}/viewer/index.html?trail=/{name}.json" + (f"&trace=/{name}.trace" if trace else "")
    if epoch is not None:
        trail, page, name = trail[epoch], f"{page}&epoch={epoch}", f"{name}, epoch {epoch}"
    locks, changed, left = facts(trail)
    drawn = browser.drawn(page)
    tests.same(f"{name}: lanes", drawn["lanes"], min(len(trail["end"]), drawn["lanes"]))
    if drawn["lanes"] == len(trail["end"]):
        tests.same(f"{name}: bars", drawn["bars"], locks)
        tests.same(f"{name}: ticks", drawn["ticks"], changed)
    tests.same(f"{name}: order", drawn["order"], order)
    tests.same(f"{name}: records after the last event", drawn["afterEvents"], words(trail["end"]))
    tests.same(f"{name}: records after the last call", drawn["afterCalls"], words(trail["end"]))
    site.picture(name)
    opening = words(trail["tree"]["records"])
    first = browser.drawn(page, event=0)
    tests.same(f"{name}: records after no event", first["afterEvents"], opening)
    for count in range(len(order) + 1):
        records = [list(record) for record in trail["tree"]["records"]]
        for call in order[:count]:
            for node, record in left.get(call, {}).items():
                records[node] = record
        found = browser.drawn(page, call=count)["afterCalls"] if count in (0, 1, len(order) // 2) else None
        if found is not None:
            tests.same(f"{name}: records after {count} calls of the order", found, words(records))
    return drawn


def largest():
    """A trail of 1,048,576 events, as a page would get it: its rules aren't judged here."""
    events = [["a", 0]]
    for at in range((1_048_576 - 2) // 2):
        node = at % 63 + 1
        events += [["l", 0, node, [at, 0, 0, 0]], ["f", 0, node, [at + 63, 0, 0, 0]]]
    events.append(["d", 0])
    nodes = [0] * 64
    end = [[0, 0, 0, 0]] * 64
    return {"calls": [["walk", [], []]], "end": end, "events": events, "procs": [["walk", ""]], "tree": {"parents": nodes, "records": end}}


def make_trails(program, folder):
    """Writes the trails, and returns of each its name, and the order that an audit prints."""

    def treedb(*command):
        return subprocess.run([program, *map(str, command)], check=True, capture_output=True, text=True).stdout

    def order_of(name):
        return json.loads(treedb("audit", folder / f"{name}.json"))["order"]

    examples = TOP / "examples"
    treedb("run", "--tree", examples / "stock/tree.json", "--proc", examples / "stock/stock.tdb", "--workers", 4, "--trail", folder / "stock.json", examples / "stock/calls.json")
    script = json.loads((examples / "calls.json").read_text())
    (folder / "script").write_text(json.dumps({**script, "calls": SWEEPS}))
    treedb("run", "--tree", examples / "three-nodes.json", "--workers", 2, "--trail", folder / "sweeps.json", folder / "script")
    # The second sweep is blocked at the root until the first has gone on.
    names = dict(script["procs"])
    moves = [SWEEPS[0], 0, 0, SWEEPS[1], 1, 1, *[0] * 60, *[1] * 60]
    (folder / "script").write_text(json.dumps({"moves": moves, "procs": [["sweep", names["sweep"]]]}))
    printed = treedb("drive", "--tree", examples / "three-nodes.json", "--trail", folder / "turns.json", folder / "script")
    (folder / "turns.trace").write_text(printed)
    # Two epochs, of a sweep each.
    (folder / "script").write_text(json.dumps({"epochs": [[sweep] for sweep in SWEEPS], "procs": script["procs"]}))
    treedb("run", "--tree", examples / "three-nodes.json", "--workers", 1, "--trail", folder / "epochs.json", folder / "script")
    return {name: order_of(name) for name in ("stock", "sweeps", "turns")}


class Site:
    """A browser, the viewer and the trails at an address, and what was checked."""

    def __init__(self, browser, folder, address, orders):
        self.browser, self.folder, self.address, self.orders = browser, folder, address, orders
        self.pictures = pathlib.Path(os.environ["PICTURES"]) if os.environ.get("PICTURES") else None

    def page(self, words):
        return f"{self.address}/viewer/index.html?{words}"

    def drawn(self, words, **places):
        return self.browser.drawn(self.page(words), **places)

    def again(self):
        """What the page that is open reports now."""
        self.browser.value("new Promise((done) => requestAnimationFrame(() => requestAnimationFrame(done)))")
        return json.loads(self.browser.value("JSON.stringify(reported())"))

    def picture(self, name):
        if self.pictures:
            self.pictures.mkdir(parents=True, exist_ok=True)
            self.browser.picture(self.pictures / f"{name}.png")


@fixture(scope="module")
def site(program):
    chromium = tool("chromium")
    with tempfile.TemporaryDirectory() as name:
        folder = pathlib.Path(name)
        shutil.copytree(TOP / "viewer", folder / "viewer")
        server = http.server.ThreadingHTTPServer(("127.0.0.1", 0), functools.partial(Quiet, directory=name))
        threading.Thread(target=server.serve_forever, daemon=True).start()
        browser = Browser(chromium)
        try:
            yield Site(browser, folder, f"http://127.0.0.1:{server.server_port}", make_trails(program, folder))
        finally:
            browser.end()
            server.shutdown()


def test_stock(tests, site):
    compare(tests, site, "stock", site.orders["stock"])


def test_sweeps(tests, site):
    compare(tests, site, "sweeps", site.orders["sweeps"])


def test_turns(tests, site):
    drawn = compare(tests, site, "turns", site.orders["turns"], trace=True)
    tests.same("stretches in which a call was blocked", drawn["blocked"], 1)
    tests.same("writes", drawn["writes"], 6)


def test_epochs(tests, site):
    for epoch in range(2):
        compare(tests, site, "epochs", [0], epoch=epoch)


def test_names(tests, site):
    (site.folder / "names.json").write_text(json.dumps(["all", "north", "aisle"]))
    tests.same("lanes", site.drawn("trail=/sweeps.json&names=/names.json")["lane"], ["0 all", "1 north", "2 aisle"])


def test_labels(tests, site):
    """No label lies over another one, or reaches out of its column; where one doesn't fit, there is less of it, or none."""
    drawn = site.drawn("trail=/stock.json")
    tests.check("times", len(drawn["times"]) > 5 and all(one[1] <= other[0] for one, other in zip(drawn["times"], drawn["times"][1:])), drawn["times"])
    edge = site.browser.value("LABELS + spaceFor()")
    tests.check("the last time", drawn["times"][-1][1] < edge, (drawn["times"], edge))
    tests.check("bars have labels", 0 < drawn["labels"] < drawn["bars"], drawn)
    fits = "paint.font = '12px system-ui, sans-serif'; ['north', 'a name that is as long as names may be, and longer', ''].map((it) => [fitting(it, 60), paint.measureText(fitting(it, 60)).width])"
    short, long, empty = json.loads(site.browser.value(f"JSON.stringify((() => {{ {fits.replace('; [', '; return [')}; }})())"))
    tests.check("a name that is too long", short[0] == "north" and empty[0] == "" and long[0].startswith("a name") and long[0].endswith("…") and long[1] <= 60, (short, long, empty))


def test_a_circle_of_parents(tests, site):
    """It is no tree, and the page says so at once."""
    value = json.loads((site.folder / "sweeps.json").read_text())
    value["tree"]["parents"][1:3] = [2, 1]
    (site.folder / "circle.json").write_text(json.dumps(value))
    site.browser.value(f"openFiles([new File([{json.dumps(json.dumps(value))}], 'circle.json')])")
    wait_until(site, "byId('error').textContent !== ''")
    tests.check("what it says", "node 1 has no parent of a lower number" in site.browser.value("byId('error').textContent"), site.browser.value("byId('error').textContent"))


def test_a_folder(tests, site):
    """Of a folder the logs are opened, and the names of nodes."""
    site.drawn("trail=/sweeps.json")
    listed = ",".join(f"new File([{json.dumps(json.dumps(['all']) if name is None else (site.folder / f'{name}.json').read_text())}], '{file}')"
                      for file, name in {"1.json": "turns", "0.json": "epochs", "names.json": None, "left.json": "turns", "2.json.part": "turns"}.items())
    site.browser.value(f"openFiles(logsOf([{listed}]))")
    drawn = site.again()
    file, _, said = files(site)
    tests.same("the files", (file, drawn["lane"][0], said.startswith("0.json")), ([False, "1", "0"], "0 all", True))


def test_colours(tests, site):
    site.drawn("trail=/sweeps.json")
    bright = "[...Array(4096).keys()].filter((call) => 1.05 / (luminance(hueOf(call), 0.65, lightOf(call) / 100) + 0.05) < 4.5).length"
    tests.same("colours on which white text is hard to read", site.browser.value(bright), 0)


def test_example(tests, site):
    site.drawn("trail=/sweeps.json")
    site.browser.value("openFiles([new File([byId('sample').textContent], 'sample.json')])")
    tests.same("its order", site.again()["order"], [2, 0, 1])


def test_largest(tests, site):
    (site.folder / "largest.json").write_text(json.dumps(largest(), separators=(",", ":")))
    tests.same("events", site.drawn("trail=/largest.json")["events"], 1_048_576)
    site.picture("largest")


# ---- several files, and a folder that is followed


def files(site):
    """The number fields for a file and an epoch, as [hidden, highest, value] each, and the last words of the state."""
    return json.loads(site.browser.value("JSON.stringify([...['file', 'epoch'].map((id) => [byId(id + 's').hidden, byId(id).max, byId(id).value]), byId('state').textContent])"))


def test_several_files(tests, site):
    """Files that are dropped together are shown in the order of their numbers, with names among them."""
    site.drawn("trail=/sweeps.json")
    texts = {"10.json": "turns", "9.json": "epochs", "names.json": None}
    listed = ",".join(f"new File([{json.dumps(json.dumps(['all']) if name is None else (site.folder / f'{name}.json').read_text())}], '{file}')" for file, name in texts.items())
    site.browser.value(f"openFiles([{listed}])")
    drawn = site.again()
    file, epoch, said = files(site)
    tests.same("the first file", (file, epoch, drawn["order"]), ([False, "1", "0"], [False, "1", "0"], [0]))
    tests.check("what it says", said.startswith("9.json, epoch 0 of 2: "), said)
    tests.same("names among them", drawn["lane"][0], "0 all")
    site.browser.value("openFile(1)")
    tests.same("the second file", (site.again()["order"], files(site)[0]), (site.orders["turns"], [False, "1", "1"]))


def test_a_folder_that_is_followed(tests, site):
    """The last file is shown, and a further one as it comes; one that isn't whole yet is waited for."""
    folder = site.folder / "trails"
    folder.mkdir()
    shutil.copy(site.folder / "epochs.json", folder / "0.json")
    site.drawn("trails=/trails")
    tests.same("the last epoch of the first file", files(site)[:2], [[True, "0", "0"], [False, "1", "1"]])
    text = (site.folder / "turns.json").read_text()
    (folder / "1.json").write_text(text[:-100])
    site.browser.value("new Promise((done) => setTimeout(done, 1500))")
    tests.same("a file that isn't whole", files(site)[0][2], "0")
    (folder / "1.json").write_text(text)
    wait_until(site, "files.length === 2 && trail.epochs === 1")
    tests.same("it is shown once it is whole", (site.again()["order"], files(site)[0]), (site.orders["turns"], [False, "1", "1"]))
    site.browser.value("openFile(0)")
    shutil.copy(site.folder / "sweeps.json", folder / "2.json")
    wait_until(site, "byId('file').max === '2'")
    tests.same("another that is shown stays", files(site)[0], [False, "2", "0"])
    site.picture("followed")


def wait_until(site, expression):
    until(lambda: site.browser.value(expression), f"it never came to {expression}")


# ---- what an audit refused


def audited(tests, site, name, texts):
    """What an audit prints of these texts, and what the page then marks."""
    paths = []
    for number, text in enumerate(texts):
        paths.append(site.folder / f"{name}-{number}.json")
        paths[-1].write_text(text)
    printed = tests.run("audit", *map(str, paths)).out
    (site.folder / f"{name}.verdict").write_text(printed)
    listed = ",".join(f"new File([{json.dumps(path.read_text())}], '{number}.json')" for number, path in enumerate(paths))
    site.drawn("trail=/sweeps.json")
    site.browser.value(f"openFiles([{listed}, new File([{json.dumps(printed)}], 'printed')])")
    drawn = site.again()
    site.picture(name)
    return printed, drawn, site.browser.value("byId('error').textContent")


def changed(site, name, change):
    trail = json.loads((site.folder / f"{name}.json").read_text())
    change(trail)
    return json.dumps(trail)


def test_what_an_audit_refused(tests, site):
    def lock_finds_another(trail):
        next(event for event in trail["events"] if event[0] == "l" and event[2] == 2)[3][0] += 1

    def another_reply(trail):
        trail["calls"][1][2] = [77]

    def another_end(trail):
        trail["end"][1][3] = 4

    for name, change, number, marks in (("wrong-record", lock_finds_another, 713, 1), ("wrong-reply", another_reply, 717, 3), ("wrong-end", another_end, 716, 1)):
        printed, drawn, said = audited(tests, site, name, [changed(site, "turns", change)])
        tests.check(f"{name}: it is refused", f'"error":[{number},' in printed, printed)
        tests.same(f"{name}: what is marked", drawn["refused"], marks)
        tests.check(f"{name}: what is said", said.startswith(f"audit refused this: [{number}, "), said)
    printed, drawn, said = audited(tests, site, "accepted", [(site.folder / "turns.json").read_text()])
    tests.same("nothing is marked on a trail that is accepted", (drawn["refused"], said), (0, ""))


def test_what_an_audit_refused_of_several_files(tests, site):
    """The file and the epoch of what was refused are shown."""
    epochs, second = (site.folder / "epochs.json").read_text(), json.loads((site.folder / "epochs.json").read_text())
    end = second[1]["end"]
    for trail in second:
        trail["calls"] = []
        trail["events"] = []
        trail["tree"]["records"] = trail["end"] = end
    second[1]["end"] = [[1, *record[1:]] for record in end]
    printed, drawn, said = audited(tests, site, "files", [epochs, json.dumps(second)])
    tests.check("the second file's second epoch is refused", '{"error":[719,1,716,' in printed, printed)
    tests.same("it is shown", (files(site)[0][2], files(site)[1][2], drawn["refused"]), ("1", "1", 1))
    tests.check("what is said", said.startswith("audit refused this: [716, "), said)
    site.browser.value("openFile(0)")
    tests.same("nothing is marked elsewhere", site.again()["refused"], 0)
