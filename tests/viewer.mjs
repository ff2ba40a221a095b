// Runs the script of viewer/index.html without a browser, on a page that has as much of one as the script asks for, and answers on standard output what a program of steps comes to, as JSON.
//
//     node tests/viewer.mjs STEPS
//
// STEPS is a file with the body of an async function in JavaScript. It is given `page`, the functions and the values of the page's script, `file`, which opens a path as a browser's File, `texts`, which draws and
// answers what texts stand where in the picture, and `settled`, which waits until what was asked for is drawn.

import { openAsBlob, readFileSync } from "node:fs";
import { readFile } from "node:fs/promises";
import path from "node:path";
import { Worker as Thread } from "node:worker_threads";
import vm from "node:vm";

const [steps] = process.argv.slice(2);
const html = readFileSync(new URL("../viewer/index.html", import.meta.url), "utf8");
const scripts = [...html.matchAll(/<script(?<words>[^>]*)>(?<text>.*?)<\/script>/gs)].map((it) => it.groups);
const WIDE = 1280, HIGH = 470;

class Element {
  constructor(id = "") {
    Object.assign(this, { id, textContent: "", value: "", max: "", hidden: false, style: {}, children: [], clientWidth: WIDE, clientHeight: HIGH, scrollLeft: 0, checked: id === "by-event" });
    const names = new Set();
    this.classList = { toggle: (name, on) => (on ? names.add(name) : names.delete(name)), contains: (name) => names.has(name) };
    for (const script of scripts) if (script.words.includes(`id="${id}"`)) this.textContent = script.text;
  }
  append(...more) { this.children.push(...more); }
  replaceChildren(fragment) { this.children = fragment.children; }
  scrollIntoView() {}
}

// A picture that keeps where its texts stand. Each letter is as wide as a wide one of the page's font.
const LETTER = 7;
let written = [];
const clips = [];
const paint = {
  measureText: (text) => ({ width: LETTER * text.length }),
  fillText: (text, x, y) => written.push({ text, left: x, right: x + LETTER * text.length, y, clip: clips.at(-1) }),
  save: () => clips.push(clips.at(-1)), restore: () => clips.pop(), rect: (x, y, wide) => { clips[clips.length - 1] = [x, x + wide]; },
};
for (const name of ["setTransform", "beginPath", "clip", "fillRect", "strokeRect", "setLineDash"]) paint[name] = () => {};

// What a browser has in the place of threads of Node.js. A file that is read when it is asked for is opened anew there.
const BEFORE = `const { parentPort } = require("worker_threads"), { openAsBlob } = require("fs");
  globalThis.postMessage = (it, moved) => parentPort.postMessage(it, moved);
  parentPort.on("message", async ({ path, ...data }) => onmessage({ data: path ? { ...data, file: await openAsBlob(path) } : data }));`;
const codes = new Map();
class Code { constructor(parts) { this.text = parts.join(""); } }
class Worker {
  constructor(address) {
    this.thread = new Thread(`${BEFORE}\n${codes.get(address)}`, { eval: true });
    this.thread.on("message", (data) => this.onmessage({ data }));
    this.thread.on("error", (wrong) => this.onerror(wrong));
  }
  postMessage(it) { this.thread.postMessage(it.file.path ? { ...it, file: null, path: it.file.path } : it); }
  terminate() { this.thread.terminate(); }
}

const byId = new Map();
const getElementById = (id) => { if (!byId.has(id)) byId.set(id, new Element(id)); return byId.get(id); };
Object.assign(getElementById("picture"), { getContext: () => paint });
const choices = ["event", "call"].map((value) => Object.assign(new Element(), { value, checked: value === "event" }));
const document = {
  getElementById, body: new Element(), createElement: () => new Element(), createDocumentFragment: () => new Element(),
  querySelector: (words) => {
    if (words.endsWith(":checked")) return choices.find((it) => it.checked);
    const chosen = choices.find((it) => words.includes(`value=${it.value}`));
    return { set checked(_) { for (const it of choices) it.checked = it === chosen; } };
  },
  querySelectorAll: () => choices,
};
const address = { createObjectURL: (code) => { const name = `code ${codes.size}`; codes.set(name, code.text); return name; }, revokeObjectURL() {} };
const world = {
  document, Worker, Blob: Code, URL: address, File, URLSearchParams, TextDecoder, console, location: { search: "" }, window: {}, devicePixelRatio: 1, setTimeout, Option: Element,
  getComputedStyle: () => ({ color: "black", backgroundColor: "white" }), addEventListener: () => {}, requestAnimationFrame: setImmediate, fetch: () => { throw new Error("nothing is fetched here"); },
};
const names = [...scripts.at(-1).text.matchAll(/^(?:async )?(?:function\*? |const |let |class )(\w+)/gm)].map((it) => it[1]);
const told = `\n;({ ${names.map((name) => `get ${name}() { return ${name}; }`).join(", ")}, get trail() { return trail; }, get files() { return files; } })`;
const page = vm.runInNewContext(scripts.at(-1).text + told, world);

// A file of a path, which is read when it is asked for, and has a name.
async function file(at) { return Object.defineProperties(await openAsBlob(at), { name: { value: path.basename(at) }, path: { value: at } }); }
async function settled() { for (let turn = 0; turn < 3; turn++) await new Promise((done) => setImmediate(done)); }
async function texts() { written = []; page.again(); await settled(); return written; }

// What the page may do meanwhile: how long it had to wait at most, in milliseconds.
let last = performance.now(), waited = 0;
const clock = setInterval(() => { const now = performance.now(); waited = Math.max(waited, now - last); last = now; }, 5);
const waits = () => { const most = waited; waited = 0; last = performance.now(); return most; };

const AsyncFunction = (async () => {}).constructor;
try {
  const found = await new AsyncFunction("page", "file", "texts", "settled", "element", "waits", await readFile(steps, "utf8"))(page, file, texts, settled, getElementById, waits);
  console.log(JSON.stringify(found, (_, value) => (typeof value === "bigint" ? String(value) : value)));
} finally { clearInterval(clock); }
process.exit(0);
