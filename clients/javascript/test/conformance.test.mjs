// Replays the lines of `clients/conformance`, which all clients replay: each request is the one that stands there, and its answer gives what stands there.

import assert from "node:assert/strict";
import { existsSync, readdirSync, readFileSync } from "node:fs";
import net from "node:net";
import test from "node:test";
import { Client, Refused } from "../treedb.mjs";

const FOLDER = new URL("../../conformance/", import.meta.url);
const files = existsSync(FOLDER) ? readdirSync(FOLDER).filter((name) => name.endsWith(".json")).sort() : [];
// Numbers that a JavaScript number can't hold become texts.
const exact = (line) => JSON.parse(line.replace(/"(?:[^"\\]|\\.)*"|-?\d{16,}/g, (it) => (it.startsWith('"') ? it : `"${it}"`)));

const spoken = (answer) => (answer instanceof Refused ? { refused: answer.numbers } : { ...answer, reply: answer.reply.map(String) });

async function done(db, { do: word, name, text, procedure, arguments: words = [], key, workers, calls, parents }) {
  const numbers = words.map(BigInt);
  if (word === "register") return { bounds: await db.register(name, text) };
  if (word === "register text") return { "bounds by name": await db.registerText(text) };
  if (word === "replace text") return { "bounds by name": await db.replaceText(text) };
  if (word === "call") return spoken(await (key === undefined ? db.call(procedure, ...numbers) : db.callOnce(key, procedure, ...numbers)));
  if (word === "batch") return { batch: [...await db.batch(calls.map(([each, given]) => [each, ...given.map(BigInt)]), workers)].map(spoken) };
  if (word === "grow") return { grown: await db.grow(parents) };
  if (word === "seal") return { sealed: await db.seal() };
  assert.equal(word, "close");
  await db.close();
  return { closed: true };
}

const refused = (reason) => {
  if (reason instanceof Refused) return { refused: reason.numbers };
  throw reason;
};

for (const file of files) {
  test(`the lines of ${file}`, { timeout: 60_000 }, async () => {
    const { steps } = JSON.parse(readFileSync(new URL(file, FOLDER), "utf8"));
    const heard = [];
    const server = net.createServer((peer) => {
      let rest = "";
      peer.setEncoding("utf8").on("error", () => {}).on("data", (piece) => {
        const lines = (rest + piece).split("\n");
        rest = lines.pop();
        for (const line of lines) peer.write(`${steps[heard.push(line) - 1].answer}\n`);
      });
    });
    await new Promise((ready) => server.listen(0, ready));
    try {
      const db = await Client.connect({ port: server.address().port });
      for (const [place, step] of steps.entries()) {
        assert.deepEqual(await done(db, step).catch(refused), step.gives, `step ${place}`);
        assert.deepEqual(exact(heard[place]), exact(step.request), `step ${place}`);
      }
      assert.equal(heard.length, steps.length);
    } finally {
      server.close();
    }
  });
}
