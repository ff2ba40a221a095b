// The package's own tests, which need no server: `npm test`. `tests/test_clients.py` tries the package on a server.

import assert from "node:assert/strict";
import { readFileSync, mkdtempSync, rmSync, writeFileSync } from "node:fs";
import net from "node:net";
import { tmpdir } from "node:os";
import { join } from "node:path";
import test from "node:test";
import { pathToFileURL } from "node:url";
import * as treedb from "../treedb.mjs";

const { Batch, Client, Disconnected, FAULTS, MissingNode, newKey, Pool, Refused, TimedOut, TreedbError, Unanswered } = treedb;

// Serves connections whose lines are answered as `answering` says: with an object, a text as it is, or nothing. `lines` are those that came.
async function serving(answering, use, path) {
  const lines = [];
  const server = net.createServer((peer) => {
    let rest = "";
    peer.setEncoding("utf8").on("error", () => {}).on("data", (piece) => {
      const come = (rest + piece).split("\n");
      rest = come.pop();
      for (const line of come) {
        lines.push(line);
        const answer = line === '{"op":"close"}' ? { closed: true } : answering(line, peer);
        if (answer !== undefined) peer.write(typeof answer === "string" ? answer : `${JSON.stringify(answer)}\n`);
      }
    });
  });
  await new Promise((ready) => server.listen(path ?? 0, ready));
  try {
    return [await use(path === undefined ? { port: server.address().port } : { path }), lines];
  } finally {
    server.close();
  }
}

const inTurn = (...answers) => () => answers.shift();

test("numbers are exact in both directions", async () => {
  const answer = '{"call":0,"reply":[9007199254740993,-9223372036854775808,5]}\n';
  const [reply, lines] = await serving(() => answer, async (to) => {
    const db = await Client.connect(to);
    const { reply } = await db.call("add", 9007199254740993n, -1, -0);
    await db.close();
    return reply;
  });
  assert.deepEqual(reply, [9007199254740993n, -9223372036854775808n, 5n]);
  assert.equal(lines[0], '{"op":"call","proc":"add","args":[9007199254740993,-1,0]}');
});

test("a call with a key", async () => {
  const [, lines] = await serving(inTurn({ call: 4, epoch: 5, reply: [6] }, { call: 4, reply: [6], stored: 7 }), async (to) => {
    const db = await Client.connect(to);
    assert.deepEqual(await db.callOnce("é", "add", 6), { call: 4, reply: [6n], epoch: 5 });
    assert.deepEqual(await db.callOnce("é", "add", 6), { call: 4, reply: [6n], stored: 7 });
    for (const key of ["", "x".repeat(65), "é".repeat(33)]) await assert.rejects(db.callOnce(key, "add", 6), RangeError);
    for (const key of [1, undefined, null]) await assert.rejects(db.callOnce(key, "add", 6), TypeError);
    await db.close();
  });
  assert.deepEqual(lines.slice(0, -1), Array(2).fill('{"op":"call","proc":"add","args":[6],"key":"é"}'));
});

test("a text stays a text", async () => {
  const names = ["\u00005", "5", '"', "\\", "é\n", "12345678901234567890"];
  const [, lines] = await serving(() => ({ bounds: {} }), async (to) => {
    const db = await Client.connect(to);
    for (const name of names) await db.register(name, name);
    await db.close();
  });
  assert.deepEqual(lines.slice(0, -1).map((line) => JSON.parse(line)), names.map((name) => ({ op: "register", name, asm: name })));
});

test("what is no exact integer is refused, and nothing is sent", async () => {
  const [, lines] = await serving(() => ({ call: 0, reply: [] }), async (to) => {
    const db = await Client.connect(to);
    for (const argument of [NaN, Infinity, 0.5, 2 ** 53, 2n ** 63n, -(2n ** 63n) - 1n]) {
      await assert.rejects(db.call("add", argument), RangeError);
      await assert.rejects(db.batch([["add", argument]]), RangeError);
    }
    for (const argument of ["1", undefined, null, [1], {}]) await assert.rejects(db.call("add", argument), TypeError);
    await assert.rejects(db.call(5), TypeError);
    await db.close();
  });
  assert.deepEqual(lines, ['{"op":"close"}']);
});

test("a refusal says what to do", async () => {
  await serving(() => ({ error: [611] }), async (to) => {
    const db = await Client.connect(to);
    const refused = await db.register("add", "").catch((reason) => reason);
    assert.ok(refused instanceof Refused && refused instanceof TreedbError);
    assert.deepEqual([refused.name, refused.numbers, refused.number, refused.advice], ["Refused", [611], 611, FAULTS[611].advice]);
    assert.match(refused.message, /^\[611\] a procedure of this name/);
    assert.match(new Refused([999, 1]).message, /^\[999, 1\] a number that this client doesn't know/);
    await db.close();
  });
});

test("requests go out before answers come", async () => {
  let held = 0;
  await serving(() => (++held === 100 ? Array.from({ length: 100 }, (_, call) => `{"call":${call},"reply":[${call}]}\n`).join("") : undefined), async (to) => {
    const db = await Client.connect(to);
    const answers = await Promise.all(Array.from({ length: 100 }, (_, number) => db.call("add", number)));
    assert.deepEqual(answers.map(({ reply }) => Number(reply[0])), [...Array(100).keys()]);
    await db.close();
  });
});

test("a batch", async () => {
  const [, lines] = await serving(() => ({ batch: [{ call: 0, epoch: 2, reply: [1] }, { error: [601] }, { error: [501] }] }), async (to) => {
    const db = await Client.connect(to);
    const batch = await db.batch([["add", 1], ["none"], ["add"]], 2);
    assert.deepEqual(batch[0], { call: 0, reply: [1n], epoch: 2 });
    assert.deepEqual(batch.refusals().map(({ number }) => number), [601, 501]);
    assert.throws(() => batch.replies(), { number: 601 });
    assert.deepEqual(Batch.of({ reply: [1n] }).replies(), [[1n]]);
    await db.close();
  });
  assert.equal(lines[0], '{"op":"batch","workers":2,"calls":[["add",[1]],["none",[]],["add",[]]]}');
});

test("records are read", async () => {
  const read = { batch: [{ call: 0, reply: [1, 2, 3, 4, 5, 6, 7, 8] }] };
  const [, lines] = await serving(inTurn({ error: [611] }, read, read, { batch: [{ call: 2, reply: [] }] }), async (to) => {
    const db = await Client.connect(to);
    assert.deepEqual((await Promise.all([db.read(3), db.read(3)]))[1], [1n, 2n, 3n, 4n, 5n, 6n, 7n, 8n]);
    await assert.rejects(db.read(9), MissingNode);
    await db.close();
  });
  assert.deepEqual(lines.map((line) => JSON.parse(line).op), ["register", "batch", "batch", "batch", "close"]);
});

test("texts and files of procedures", async () => {
  const bounds = { emits: 1, locks: 2, steps: 3 };
  const registered = { registered: [{ bounds, name: "two" }, { bounds, name: "__proto__" }] };
  const folder = mkdtempSync(join(tmpdir(), "treedb-"));
  const file = (name, content) => {
    writeFileSync(join(folder, name), content);
    return join(folder, name);
  };
  try {
    const [, lines] = await serving(inTurn(registered, registered, { bounds }, { bounds }, { bounds }, { error: [281, 13, 18] }), async (to) => {
      const db = await Client.connect(to);
      assert.deepEqual(Object.entries(await db.registerText("proc é")), [["two", bounds], ["__proto__", bounds]]);
      assert.deepEqual(Object.keys(await db.registerFile(file("more.tdb", "proc"))), ["two", "__proto__"]);
      assert.deepEqual(await db.registerFile(file("turn.asm", "ret\n")), { turn: bounds });
      assert.deepEqual(await db.registerFile(pathToFileURL(file("turn.asm", "ret\n")), "other"), { other: bounds });
      assert.deepEqual(await db.registerFile(file("add.tlp", Buffer.from("544c5032020000011400000000000000", "hex"))), { add: bounds });
      await assert.rejects(db.registerFile(file("more.tdb", "proc")), { number: 281, numbers: [281, 13, 18] });
      await assert.rejects(db.registerFile(file("more.tdb", "proc"), "more"), TypeError);
      await assert.rejects(db.registerFile(file("more.tdb", Buffer.from([255]))), TypeError);
      await assert.rejects(db.registerFile(join(folder, "none.tdb")), { code: "ENOENT" });
      for (const broken of ["", "TLP1", "TLP3\0\0\0\0", "TLP1\0\0\0\u0001ret", Buffer.from("544c5031000000011600000000000000", "hex")]) {
        await assert.rejects(db.registerFile(file("wrong.tlp", broken)), RangeError);
      }
      await db.close();
    });
    assert.deepEqual(lines.map((line) => JSON.parse(line)), [
      { op: "register", text: "proc é" }, { op: "register", text: "proc" }, { op: "register", name: "turn", asm: "ret\n" },
      { op: "register", name: "other", asm: "ret\n" }, { op: "register", name: "add", asm: "version 2\narity 2\nret\n" },
      { op: "register", text: "proc" }, { op: "close" },
    ]);
  } finally {
    rmSync(folder, { recursive: true });
  }
});

test("growth and seals", async () => {
  const [, lines] = await serving(inTurn({ grown: 40 }, { sealed: 3 }), async (to) => {
    const db = await Client.connect(to);
    assert.deepEqual([await db.grow([0, 40]), await db.seal()], [40, 3]);
    await db.close();
  });
  assert.equal(lines[0], '{"op":"grow","parents":[0,40]}');
});

test("a late answer is passed over", async () => {
  await serving((line, peer) => {
    if (!line.includes("[1]")) return { call: 1, reply: [2] };
    setTimeout(() => peer.write('{"call":0,"reply":[1]}\n{"call":1,"reply":[2]}\n'), 200);
    return undefined;
  }, async (to) => {
    // A busy machine may take longer than that to connect.
    const db = await Client.connect({ ...to, timeout: 100, connectTimeout: 60_000 });
    await assert.rejects(db.call("add", 1), TimedOut);
    await new Promise((go) => setTimeout(go, 200));
    await db.close();
  });
});

test("a lost connection fails all that wait", async () => {
  await serving((line, peer) => { peer.destroy(); }, async (to) => {
    const db = await Client.connect(to);
    const found = await Promise.allSettled([db.call("add", 1), db.call("add", 2)]);
    assert.ok(found.every(({ reason }) => reason instanceof Disconnected));
    await assert.rejects(db.call("add", 3), Disconnected);
    await db.close();
  });
});

test("an answer that is no JSON", async () => {
  await serving(() => "{\n", async (to) => {
    await assert.rejects((await Client.connect(to)).call("add", 1), Disconnected);
  });
});

test("nobody listens", async () => {
  await assert.rejects(Client.connect({ path: "/there is no such socket" }), Disconnected);
});

test("a Unix socket", async () => {
  const folder = mkdtempSync(join(tmpdir(), "treedb-"));
  try {
    await serving(() => ({ call: 0, reply: [7] }), async (to) => {
      const db = await Client.connect(to);
      assert.deepEqual((await db.call("add")).reply, [7n]);
      await db.close();
    }, join(folder, "socket"));
  } finally {
    rmSync(folder, { recursive: true });
  }
});

test("the control", async () => {
  const told = { status: '{"epoch":3,"calls":9}\n', "snapshot monday.db": '{"snapshot":"monday.db"}\n', stop: '{"stopping":true}\n' };
  const [, lines] = await serving((line) => told[line] ?? { error: [1010] }, async (to) => {
    assert.deepEqual(await Client.status(to), { epoch: 3, calls: 9 });
    await Client.snapshot("monday.db", to);
    await assert.rejects(Client.snapshot("../monday.db", to), (refused) => refused instanceof Refused && refused.number === 1010);
    await assert.rejects(Client.snapshot("monday\nstop", to), TypeError);
    await Client.stop(to);
  });
  assert.deepEqual(lines, ["status", "snapshot monday.db", "snapshot ../monday.db", "stop"]);
  await assert.rejects(Client.status({ port: 1 }), Disconnected);
});

test("a block closes the connection", async () => {
  const [, lines] = await serving(() => ({ call: 0, reply: [] }), async (to) => {
    const db = await Client.connect(to.port, "127.0.0.1");
    await db.call("add");
    await db[Symbol.asyncDispose ?? Symbol.for("Symbol.asyncDispose")]();
    await assert.rejects(db.call("add"), /closed/);
  });
  assert.deepEqual(lines.slice(1), ['{"op":"close"}']);
});

test("what may have been done", async () => {
  await assert.rejects(Client.connect({ path: "/there is no such socket" }), (lost) => lost instanceof Unanswered && !lost.mayHaveRun && /nothing was sent/.test(lost.message));
  for (const answer of ["{\n", "[]\n", "null\n", undefined]) {
    await serving(() => answer, async (to) => {
      const db = await Client.connect({ ...to, timeout: 200, connectTimeout: 60_000 });
      await assert.rejects(db.call("add", 1), (lost) => lost instanceof Unanswered && lost.mayHaveRun && /may have been done/.test(lost.message));
      if (answer !== undefined) await assert.rejects(db.call("add", 1), (lost) => lost instanceof Disconnected && !lost.mayHaveRun);
      // The answer to the call is still missing, so none is taken for that of the close.
      await db.close().catch((late) => assert.ok(late instanceof TimedOut));
    });
  }
});

test("a call that is run once", async () => {
  let tries = 0;
  const [, lines] = await serving((line, peer) => {
    tries += 1;
    if (tries > 2) return { call: 7, reply: [5], stored: 2 };
    peer.destroy();
    return undefined;
  }, async (to) => {
    const db = await Client.connect(to);
    assert.deepEqual(await db.callOnce(newKey(), "add", 0, 5), { call: 7, reply: [5n], stored: 2 });
    assert.deepEqual(await Promise.all([db.callOnce("one", "add"), db.callOnce("two", "add")]).then((all) => all.length), 2);
    await db.close();
    await assert.rejects(db.callOnce("three", "add"), TreedbError);
  });
  assert.equal(new Set(lines.slice(0, 3)).size, 1);
  assert.notEqual(newKey(), newKey());
});

test("a call that is asked for again until patience is over", async () => {
  await serving((line, peer) => { peer.destroy(); }, async (to) => {
    const db = await Client.connect({ ...to, patience: 200 });
    await assert.rejects(db.callOnce("one", "add"), (lost) => lost instanceof Unanswered && lost.mayHaveRun);
    await db.reconnect();
    await assert.rejects(db.call("add"), Disconnected);
  });
});

test("a pool", async () => {
  let tries = 0;
  const peers = new Set();
  await serving((line, peer) => {
    peers.add(peer);
    tries += 1;
    if (tries !== 5) return { call: tries, reply: [tries] };
    peer.destroy();
    return undefined;
  }, async (to) => {
    const pool = new Pool({ ...to, size: 2 });
    assert.equal((await Promise.all([pool.call("add"), pool.call("add"), pool.call("add"), pool.call("add")])).length, 4);
    assert.equal(peers.size, 2);
    await assert.rejects(pool.call("add"), Disconnected);
    assert.deepEqual((await pool.call("add")).reply, [6n]);
    assert.deepEqual((await pool.callOnce("one", "add")).reply, [7n]);
    await pool.close();
    await assert.rejects(pool.call("add"), /closed/);
  });
  assert.throws(() => new Pool({ port: 1, size: 0 }), RangeError);
  const nobody = new Pool({ path: "/there is no such socket", patience: 100 });
  await assert.rejects(nobody.callOnce("one", "add"), Disconnected);
  await nobody.close();
});

test("each name is declared for TypeScript", () => {
  const declared = readFileSync(new URL("../treedb.d.mts", import.meta.url), "utf8").match(/^export (?:class|const|function) (\w+)/gm).map((it) => it.split(" ")[2]);
  assert.deepEqual(declared.sort(), Object.keys(treedb).sort());
});
