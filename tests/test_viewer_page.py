"""Runs the script of viewer/index.html in Node.js, without a browser: reading logs by pieces, folders, names, and where texts stand. tests/viewer.mjs has as much of a browser as the script asks for."""

import json
import pathlib
import subprocess
import tempfile

from running import PATIENCE, TOP, Counts, alone, fixture, tool
from test_viewer import make_trails, words

# A log of so many bytes has one epoch of so many calls between two short ones. Each call locks one node and frees it with another record: the most events that an epoch may have.
BYTES, CALLS, NODES = 100_000_000, 262_143, 64
# Within so many seconds it is read on a machine that is busy with other work, and the page never waits for so many milliseconds, or, on one that is busier, for a fifth of that time.
MOST_SECONDS, MOST_MILLISECONDS = 60, 1_000
LARGE = 9_007_199_254_740_993


@fixture
def tests():
    """What was checked."""
    return Counts()


@fixture
def page():
    """A folder, and what the page comes to that takes these steps there, which are the body of a function of `tests/viewer.mjs`."""
    with tempfile.TemporaryDirectory() as folder:
        def take(steps, **given):
            path = f"{folder}/steps.js"
            with open(path, "w") as file:
                file.write("".join(f"const {name} = {json.dumps(value)};\n" for name, value in {"folder": folder, **given}.items()) + steps)
            done = subprocess.run([tool("node"), TOP / "tests/viewer.mjs", path], stdin=subprocess.DEVNULL, capture_output=True, text=True, timeout=PATIENCE, check=False)
            assert done.returncode == 0, done.stderr
            return json.loads(done.stdout)

        take.folder = folder
        yield take


OPEN = "const opened = async (...names) => { await page.openFiles(await Promise.all(names.map((it) => file(`${folder}/${it}`)))); await settled(); return [element('state').textContent, element('error').textContent]; };\n"


def write(page, name, value):
    with open(f"{page.folder}/{name}", "w") as file:
        file.write(value if isinstance(value, str) else json.dumps(value, separators=(",", ":")))


def trail(values, name="set"):
    """A trail of a root, a child for each value, and a call for each child, that puts the value there; and what the records are then."""
    nodes = len(values) + 1
    records = [[0] * 8 for _ in range(nodes)]
    events = []
    for call, value in enumerate(values):
        node = call + 1
        events += [["a", call], ["l", call, node, records[node]], ["f", call, node, [value, *records[node][1:]]], ["d", call]]
        records = [[value, *record[1:]] if at == node else record for at, record in enumerate(records)]
    calls = [[name, [value], [value]] for value in values]
    return {"calls": calls, "end": records, "events": events, "procs": [[name, "arity 1\nret\n"]], "tree": {"parents": [0] * nodes, "records": [[0] * 8] * nodes}}


def text_of_large(fixed):
    """The text of the large epoch. Most fields of its records have 64 bits."""
    def records(count):
        return ",".join(f"[{count(node)},{fixed}]" for node in range(NODES))

    yield '{"calls":[' + ",".join(f'["add",[{call}],[]]' for call in range(CALLS)) + '],"end":['
    # Node `n` above the root has been locked by each call of the same rest.
    times = [0] + [len(range(node - 1, CALLS, NODES - 1)) for node in range(1, NODES)]
    yield records(times.__getitem__) + '],"events":['
    for call in range(CALLS):
        node, count = call % (NODES - 1) + 1, call // (NODES - 1)
        yield f'{"," if call else ""}["a",{call}],["l",{call},{node},[{count},{fixed}]],["f",{call},{node},[{count + 1},{fixed}]],["d",{call}]'
    yield '],"procs":[["add","arity 1\\nret\\n"]],"tree":{"parents":[' + ",".join("0" * NODES) + '],"records":[' + records(lambda _: 0) + "]}}"


@alone
def test_a_log_of_100_megabytes(tests, page):
    fixed = ",".join([str(-LARGE * 1000 - 1)] * 7)
    with open(f"{page.folder}/0.json", "w") as file:
        file.write("[" + json.dumps(trail([5, -LARGE])) + ",")
        file.writelines(text_of_large(fixed))
        file.write(f",\n {json.dumps(trail([7]))}]\n")
        size = file.tell()
    tests.check("how long the log is", 0.95 * BYTES < size < 1.3 * BYTES, size)
    found = page(OPEN + """
        const epochs = [];
        for (const epoch of [0, 1, 2]) {
            waits();
            // The processor's time: a machine that is busy with other work takes longer.
            const began = process.cpuUsage(), from = performance.now();
            const shown = epochs.length === 0 ? await opened("0.json") : (element("epoch").value = String(epoch), await page.openFile(0, epoch));
            const { user, system } = process.cpuUsage(began), seconds = (user + system) / 1e6, passed = (performance.now() - from) / 1000, most = waits();
            await texts();
            const drawing = waits(), { order, lanes, events, afterEvents, afterCalls } = page.reported();
            epochs.push({ said: element("state").textContent, wrong: element("error").textContent, seconds, passed, most, drawing, lanes, events, inOrder: order.every((call, at) => call === at), calls: order.length,
                afterEvents, afterCalls, listed: element("order").children.length });
        }
        await page.openFile(0, 1);
        element("call").value = "100"; element("call").oninput(); await settled();
        const half = page.reported().afterCalls;
        return { epochs, half, listed: element("order").children.map((it) => it.textContent).slice(-2), memory: process.resourceUsage().maxRSS };""")
    small, large, last = found["epochs"]
    end = [[str(field) for field in record] for record in trail([5, -LARGE])["end"]]
    tests.same("the first epoch", (small["said"], small["afterEvents"], small["afterCalls"]), ("epoch 0 of 3: 3 nodes, 2 calls, 8 events", end, end))
    tests.same("the last epoch", (last["said"], last["calls"], last["afterCalls"][1][0]), ("epoch 2 of 3: 2 nodes, 1 calls, 4 events", 1, "7"))
    times = len(range(0, CALLS, NODES - 1))
    tests.same("the large epoch", (large["said"], large["wrong"], large["inOrder"], large["calls"]), (f"epoch 1 of 3: {NODES} nodes, {CALLS} calls, {4 * CALLS} events", "", True, CALLS))
    tests.same("its records", (large["afterEvents"][1], large["afterCalls"][1]), ([str(times), *fixed.split(",")],) * 2)
    tests.check("few of its calls are listed", large["listed"] <= 402, large["listed"])
    tests.same("its records after 100 calls", [record[0] for record in found["half"][:39]], ["0"] + ["2"] * 37 + ["1"])
    tests.same("the calls around them", found["listed"], ["399 add", f"{CALLS - 400} more"])
    seconds, most = small["seconds"] + large["seconds"], max(max(each["most"], each["drawing"]) for each in found["epochs"])
    print(f"viewer: {size / 1e6:.0f} MB: its epochs found in {small['seconds']:.1f} s, the large one read in {large['seconds']:.1f} s; the page waited {most:.0f} ms at most; {found['memory'] / 1e3:.0f} MB of memory")
    tests.check("how long it took", seconds < MOST_SECONDS, seconds)
    tests.check("the page stays usable", most < max(MOST_MILLISECONDS, 200 * (small["passed"] + large["passed"])), [(each["most"], each["drawing"]) for each in found["epochs"]])


def test_what_a_run_leaves(tests, page, program):
    """The order of the calls is the one that an audit prints, and the records are those of the trail."""
    folder = pathlib.Path(page.folder)
    orders = make_trails(program, folder)
    found = page(OPEN + "const found = []; for (const name of names) { await opened(`${name}.json`); found.push(page.reported()); } return found;", names=list(orders))
    for (name, order), shown in zip(orders.items(), found, strict=True):
        trail = json.loads((folder / f"{name}.json").read_text())
        tests.same(f"{name}: the order", shown["order"], order)
        tests.same(f"{name}: the records", (shown["afterEvents"], shown["afterCalls"]), (words(trail["end"]),) * 2)


def test_pieces(tests, page):
    """A log is read the same, wherever its pieces end, also within numbers, texts and letters of several bytes."""
    value = [trail([1, -LARGE, 3], 'a "}],[{\\ ä'), trail([4, 5])]
    for name, indent in (("close", None), ("wide", 1)):
        write(page, f"{name}.json", json.dumps(value, indent=indent, ensure_ascii=False) + "\n")
    found = page("""
        const all = [];
        for (const name of ["close", "wide"]) for (const size of [1, 2, 3, 7, 64, 1000, 1 << 22]) {
            const sized = page.WORKER.replace(/PIECE = \\d+/, `PIECE = ${size}`).replace("onmessage = work;", "return [partsOf, readTrail, (it, call) => exact(it.callBytes.subarray(it.callAt[call], it.callAt[call + 1] - 1))];");
            const [partsOf, readTrail, callOf] = new Function(sized)(), bytes = await file(`${folder}/${name}.json`), parts = await partsOf(bytes, () => {});
            for (const epoch of [0, 1]) {
                const { order, found, end, calls, events, ...it } = await readTrail(bytes, parts, epoch, () => {});
                all.push([epoch, [...order], [...found.slice(0, 48)], [...end], events, [...Array(calls).keys()].map((call) => callOf(it, call))]);
            }
        }
        return all;""")
    for epoch, order, records, end, events, calls in found:
        wanted = value[epoch]
        tests.same("a trail", (order, end, events), ([*range(len(wanted["calls"]))], [str(field) for record in wanted["end"] for field in record], len(wanted["events"])))
        tests.same("its records", records, [str(field) for event in wanted["events"][:6] for field in (event[3] if len(event) > 2 else [0] * 8)])
        tests.same("its calls", [[name, [str(it) for it in args]] for name, args, _ in calls], [[name, [str(it) for it in args]] for name, args, _ in wanted["calls"]])
    tests.same("how often it was read", len(found), 28)


def test_what_is_no_log(tests, page):
    """What is wrong is said, and the page goes on."""
    whole = json.dumps(trail([1]))
    other = trail([1])
    other["tree"]["parents"] = [0, 1]
    strange, far = trail([1]), trail([1])
    strange["events"][0][1], far["events"][1][2] = 1, 2
    texts = {"cut": whole[:-1], "empty": "", "list": "[]", "words": '{"trail":1}', "circle": json.dumps(other), "call": json.dumps(strange), "node": json.dumps(far), "number": "17"}
    for name, text in texts.items():
        write(page, f"{name}.json", text)
    write(page, "whole.json", whole)
    said = page(OPEN + "const said = {}; for (const name of names) said[name] = (await opened(`${name}.json`))[1]; return [said, await opened('whole.json')];", names=list(texts))
    wanted = {"cut": "its end is missing", "empty": "it has no parts", "list": "it has no parts", "words": 'it has no "calls"', "circle": "node 1 has no parent of a lower number", "call": "event 0 is of a call that isn't there",
              "node": "event 1 is at a node that isn't there", "number": "it has no parts"}
    tests.same("what is said", said[0], {name: f"This is no trail: Error: {words}" for name, words in wanted.items()})
    tests.same("a log afterwards", said[1], ["2 nodes, 1 calls, 4 events", ""])


def test_another_file_meanwhile(tests, page):
    """The file that was asked for last is the one that is shown."""
    write(page, "0.json", trail([1] * 500))
    write(page, "1.json", trail([2]))
    found = page("await page.openFiles([await file(`${folder}/0.json`), await file(`${folder}/1.json`)]); const both = await Promise.all([page.openFile(0), page.openFile(1)]); return [both, element('state').textContent];")
    tests.same("what is shown", found, [[False, True], "1.json, 2 nodes, 1 calls, 4 events"])


def test_a_folder_and_names(tests, page):
    """Of a folder of logs the files are taken in the order of their numbers, and the names that a client keeps beside them, also of nodes that were appended later."""
    for number in (0, 2, 10):
        write(page, f"{number}.json", [trail([number + 1]), trail([number + 2])])
    write(page, "names.json", ["", "north", "south"])
    write(page, "names.json.parents", [0, 0, 0])
    write(page, "3.json.part", "[")
    found = page("""
        const list = await Promise.all(names.map((it) => file(`${folder}/${it}`)));
        await page.openFiles(page.logsOf(list)); await settled();
        const first = [element("state").textContent, page.reported().lane, page.files.map((it) => it.name)];
        await page.openFile(2, 1); await settled();
        return [first, element("state").textContent, page.reported().lane, page.reported().afterEvents[1][0]];""", names=["10.json", "names.json", "2.json", "3.json.part", "names.json.parents", "0.json"])
    tests.same("the first file", found[0], ["0.json, epoch 0 of 2: 2 nodes, 1 calls, 4 events", ["0", "1 north"], ["0.json", "2.json", "10.json"]])
    tests.same("the last file's second epoch", found[1:], ["10.json, epoch 1 of 2: 2 nodes, 1 calls, 4 events", ["0", "1 north"], "12"])


def test_a_folder_that_is_followed(tests, page):
    """The last file is shown, and a further one as it comes; one that isn't whole yet is waited for; another one that is shown stays."""
    found = page("""
        const written = [whole[0]], at = async (number) => (written[number] ? { name: `${number}.json`, bytes: () => new Blob([written[number]]) } : null);
        const come = async (holds) => { for (let turn = 0; turn < 1000 && !holds(); turn++) await new Promise((passed) => setTimeout(passed, 5)); return [element("state").textContent, element("file").max]; };
        await page.follow(at, 5);
        const said = [await come(() => true)];
        written.push(whole[1].slice(0, -1));
        await come(() => element("error").textContent);
        said.push([page.trail.nodes, page.files.length > 2]);
        written[1] = whole[1];
        said.push(await come(() => page.trail.nodes === 3));
        await page.openFile(0);
        written.push(whole[0]);
        said.push(await come(() => page.files.length === 3));
        return said;""", whole=[json.dumps(trail([1])), json.dumps([trail([1]), trail([2, 3])])])
    one, two = "0.json, 2 nodes, 1 calls, 4 events", "1.json, epoch 1 of 2: 3 nodes, 2 calls, 8 events"
    tests.same("what is shown", found, [[one.removeprefix("0.json, "), 0], [2, False], [two, 1], [one, 2]])


def test_labels(tests, page):
    """No text lies over another one, or reaches out of its column, at any zoom and of any length."""
    values = trail([2**63 - 1 - at for at in range(28)], "a_name_that_is_longer_than_most_bars")
    write(page, "trail.json", values)
    write(page, "names.json", [f"a name of many words, the {node}th of all" for node in range(29)])
    found = page(OPEN + """
        await opened("trail.json", "names.json");
        const all = [];
        for (const [from, width] of [[0, 113], [0, 30], [90, 23], [3.3, 7], [100, 4], [0, 61.7]]) { page.look(from, width); all.push(await texts()); }
        element("event").value = "110"; element("event").oninput();
        all.push(await texts());
        return { all, edges: [page.LABELS, page.LABELS + page.spaceFor(), 1280] };""")
    for number, written in enumerate(found["all"]):
        rows = {}
        for it in written:
            column = next((place for place, edge in enumerate(found["edges"]) if it["left"] < edge), 3)
            tests.check(f"picture {number}: a text within its column", column < 3 and it["right"] <= found["edges"][column], it)
            rows.setdefault(it["y"], []).append((it["left"], it["right"], it["text"]))
        for row in rows.values():
            row.sort()
            tests.check(f"picture {number}: texts beside each other", all(one[1] <= other[0] for one, other in zip(row, row[1:])), row)
    times = [it["text"] for it in found["all"][-1] if it["y"] == 11]
    tests.check("there are times, and the columns' name", len(times) > 6 and times[-1] == "record of eight fields", times)
