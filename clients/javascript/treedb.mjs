// A client of a treedb server for Node.js, which needs nothing else.
//
//     import { Client } from "treedb-client";
//
//     const db = await Client.connect({ port: 7878 });
//     await db.registerFile("stock.tdb");
//     console.log((await db.call("stock", 1n)).reply);
//     await db.close();
//
// Numbers of records are signed 64-bit integers, which a JavaScript number can't hold: arguments may be BigInts, or numbers that are safe integers,
// and replies are BigInts. `docs/use/server.md` has the lines that go to and fro, `docs/use/faults.md` all numbers of refusals.

import { randomUUID } from "node:crypto";
import { readFile } from "node:fs/promises";
import net from "node:net";
import { parse } from "node:path";
import { setTimeout as pause } from "node:timers/promises";
import { fileURLToPath } from "node:url";
import { assemblerText } from "./containers.mjs";
import { FAULTS } from "./faults.mjs";

export { FAULTS };

/** The base of all errors of this package. */
export class TreedbError extends Error {
  constructor(message, options) {
    super(message, options);
    this.name = new.target.name;
  }
}

/**
 * The server refused a request, and nothing was changed. `numbers` are the fault's number and then its parts, as [405, 3, 1]; `number` is the first, `meaning`
 * says when it is answered, and `advice` what to do. Of a text of the procedure language that has a fault, the numbers end with its line and its column.
 */
export class Refused extends TreedbError {
  constructor(numbers) {
    const { meaning, advice } = FAULTS[numbers[0]] ?? { meaning: "a number that this client doesn't know", advice: "see docs/use/faults.md of the server's version" };
    super(`[${numbers.join(", ")}] ${meaning}`);
    Object.assign(this, { numbers, number: numbers[0], meaning, advice });
  }
}

/**
 * The base of `Disconnected` and `TimedOut`: a request has no answer. `mayHaveRun` says whether it may have been done all the same. Where it is false, nothing was
 * sent, and asking again does no harm.
 */
export class Unanswered extends TreedbError {
  constructor(reason, { mayHaveRun = false, cause } = {}) {
    super(reason, cause === undefined ? undefined : { cause });
    this.reason = reason;
    this.told(mayHaveRun);
  }

  /** Says whether the request may have been done. */
  told(mayHaveRun) {
    this.mayHaveRun = mayHaveRun;
    this.message = `${this.reason} (${mayHaveRun ? "it may have been done" : "nothing was sent"})`;
    return this;
  }
}

/** There is no connection: the server can't be reached, or the connection ended before the answer. */
export class Disconnected extends Unanswered {
  constructor(reason = "the server ended the connection", options) {
    super(reason, options);
  }
}

/** The answer didn't come in time. */
export class TimedOut extends Unanswered {
  constructor(reason = "no answer in time", options) {
    super(reason, options);
  }
}

/** The tree has no node of this number. */
export class MissingNode extends TreedbError {}

/** What became of a batch: for each of its calls, in their order, an answer, or the `Refused` that says why it has none. */
export class Batch extends Array {
  // What `map` and the like make is a plain array.
  static get [Symbol.species]() {
    return Array;
  }

  /** The answers, if each call has one; otherwise throws the first refusal. The other calls of the batch were done all the same. */
  answers() {
    for (const outcome of this) if (outcome instanceof Refused) throw outcome;
    return [...this];
  }

  /** The replies, if each call has one; otherwise throws the first refusal. The other calls of the batch were done all the same. */
  replies() {
    return this.answers().map(({ reply }) => reply);
  }

  /** The refusals alone. */
  refusals() {
    return this.filter((outcome) => outcome instanceof Refused);
  }
}

// The procedure by which a client reads records: it emits the eight fields of a node.
const READER = "treedb_read";
const READER_TEXT = ["version 2", "arity 1", "first n0 v0 else L18", ...[..."01234567"].flatMap((field) => [`get v1 n0 ${field}`, "emit v1"]), "rel n0", "L18:", "ret", ""].join("\n");
// A procedure of this name was registered before.
const NAME_TAKEN = 611;
// How many calls a batch has at most.
const MAX_BATCH = 256;
// How many bytes of UTF-8 a key has at most.
const MAX_KEY = 64;
// How long an answer may take, in milliseconds, where nothing else is said, and for how long a call is asked for again.
const TIMEOUT = 30_000;
const PATIENCE = 60_000;
// The first pause before another try, and the longest.
const FIRST_PAUSE = 50;
const LONGEST_PAUSE = 2_000;
// A longer line is none that a server answers.
const MAX_ANSWER = 2 ** 24;

/** A key for a call that no other call has: 122 bits by chance. */
export const newKey = () => randomUUID();

// What a request gives that may be asked for again: it is, where it has no answer, until `patience` is over. Each pause is up to twice as long as the one before, and by
// chance less, so that many clients of a server don't all come at once.
async function untilAnswered(ask, patience) {
  const end = performance.now() + patience;
  let mayHaveRun = false;
  for (let longest = FIRST_PAUSE; ; longest = Math.min(2 * longest, LONGEST_PAUSE)) {
    try {
      return await ask();
    } catch (lost) {
      if (!(lost instanceof Unanswered)) throw lost;
      mayHaveRun ||= lost.mayHaveRun;
      const left = end - performance.now();
      if (left <= 0) throw lost.told(mayHaveRun);
      await pause(Math.min(longest * (0.5 + Math.random() / 2), left));
    }
  }
}

// Requests are written by hand, since JSON.stringify takes no BigInt. A text stays a text, and only an exact integer of 64 bits is a number.
function text(value) {
  if (typeof value !== "string") throw new TypeError(`${String(value)} is no text`);
  return JSON.stringify(value);
}

function keyText(key) {
  const written = text(key);
  const { length } = new TextEncoder().encode(key);
  if (length === 0 || length > MAX_KEY) throw new RangeError(`${written} isn't of 1 to ${MAX_KEY} bytes`);
  return written;
}

function integer(value) {
  if (typeof value !== "number" && typeof value !== "bigint") throw new TypeError(`${String(value)} is no integer`);
  if (typeof value === "number" && !Number.isSafeInteger(value)) throw new RangeError(`${value} is no safe integer; a BigInt can have 64 bits`);
  const exact = BigInt(value);
  if (BigInt.asIntN(64, exact) !== exact) throw new RangeError(`${value} doesn't fit 64 bits`);
  return String(exact);
}

const integers = (values) => `[${Array.from(values, integer).join(",")}]`;

// An answer's JSON. Numbers of more than 15 digits become texts first, since a JavaScript number would round them; a text of the answer stays as it is.
function answerOf(line) {
  return JSON.parse(line.replace(/"(?:[^"\\]|\\.)*"|-?\d{16,}/g, (it) => (it.startsWith('"') ? it : `"${it}"`)));
}

const utf8 = new TextDecoder("utf-8", { fatal: true });

// A call whose key another had before says the number of its epoch in the store, and no other.
const callOf = ({ call, reply, stored, epoch = 0 }) => (stored === undefined ? { call, reply: reply.map(BigInt), epoch } : { call, reply: reply.map(BigInt), stored });

export class Client {
  #socket;
  #timeout;
  // Where the client was made for, as `connect` was told.
  #to;
  #rest = "";
  #waiting = [];
  #ended = null;
  #reads = null;
  #opening = null;
  #isClosed = false;

  /** Takes over a connected socket; `connect` makes one. `timeout` is in milliseconds, for each answer; 0 waits as long as it takes. */
  constructor(socket, timeout = TIMEOUT, to = null) {
    this.#timeout = timeout;
    this.#to = to;
    this.#takeOver(socket);
  }

  #takeOver(socket) {
    this.#socket = socket;
    this.#rest = "";
    this.#ended = null;
    const end = (reason) => { if (socket === this.#socket) this.#end(reason); };
    socket.setEncoding("utf8");
    socket.setNoDelay?.(true);
    socket.on("data", (piece) => { if (socket === this.#socket) this.#take(piece); });
    socket.on("error", (cause) => end(new Disconnected(`the connection is lost: ${cause.message}`, { cause })));
    socket.on("close", () => end(new Disconnected()));
  }

  /**
   * Connects to a port, `{ port, host }` or `port, host`, or to a Unix socket, `{ path }`. With `timeout`, in milliseconds, 30,000 if nothing is said, each answer has to come in time, else
   * `TimedOut`; the connection goes on after that, and the late answer is passed over. `connectTimeout` is that of the connection, and as long as `timeout` where it isn't said. 0 waits as
   * long as it takes. `patience`, 60,000 if nothing is said, is for how long `callOnce` asks again.
   */
  static async connect(to, host) {
    const asked = typeof to === "object" ? { ...(to.path === undefined && { host: "127.0.0.1" }), ...to } : { port: to, host: host ?? "127.0.0.1" };
    return new Client(await opened(asked), asked.timeout ?? TIMEOUT, asked);
  }

  /**
   * What a server says of itself, asked at its control: `{ port }` or `{ path }`. It answers `{ epoch, generation, calls, connections, nodes, procedures, .. }`; in session mode a server
   * refuses it (901).
   */
  static status(to) {
    return Client.#told("status", to);
  }

  /**
   * Has a server with a store copy it into the file of that name, in the folder of its `--snapshots`, asked at its control. The copy is whole when this is done. A name that isn't one, or that a
   * file has, is refused with 1010, and a server that makes no copies refuses with 901.
   */
  static async snapshot(name, to) {
    if (text(name).includes("\\n")) throw new TypeError("a copy's name is one line");
    await Client.#told(`snapshot ${name}`, to);
  }

  /** Asks a server to end, at its control. It answers what it has read, and then ends. */
  static async stop(to) {
    await Client.#told("stop", to);
  }

  // The answer to a word at a control.
  static async #told(word, to) {
    const control = await Client.connect(to);
    try {
      return await control.#ask(word);
    } finally {
      control.#isClosed = true;
      control.#end(new Disconnected("the connection is closed"));
      control.#socket.destroy();
    }
  }

  /** Whether there is a connection, as far as this client knows. */
  get isOpen() {
    return this.#ended === null;
  }

  /** Connects anew to where the client was made for, if there is no connection. After `close` it doesn't. */
  async reconnect() {
    if (this.#isClosed || this.#to === null) throw new TreedbError("the client is closed, or was made without an address");
    if (this.isOpen) return;
    // Who asks for it at the same time waits for the same connection.
    this.#opening ??= opened(this.#to).then((socket) => this.#takeOver(socket)).finally(() => { this.#opening = null; });
    await this.#opening;
  }

  /** Registers a procedure's assembler text under a name. Answers its bounds: `{ steps, locks, emits }`. */
  async register(name, asm) {
    return (await this.#ask(`{"op":"register","name":${text(name)},"asm":${text(asm)}}`)).bounds;
  }

  /**
   * Registers all procedures of a text of the procedure language, or none. Answers the bounds of each by its name. In session mode (`--connections`) a server doesn't take such
   * texts: 901.
   */
  async registerText(written) {
    const { registered } = await this.#ask(`{"op":"register","text":${text(written)}}`);
    return Object.fromEntries(registered.map(({ name, bounds }) => [name, bounds]));
  }

  /**
   * Registers the procedures of a file. Answers the bounds of each by its name. Of a file `.tdb` they are those of its text, as `registerText` has it. A container
   * (`.tlp`), and an assembler text in any other file, has one procedure, which is registered under `name`, or else the file's name without its ending.
   */
  async registerFile(path, name) {
    const bytes = await readFile(path);
    const file = parse(path instanceof URL ? fileURLToPath(path) : path);
    if (file.ext === ".tdb") {
      if (name !== undefined) throw new TypeError("a text of the procedure language names its procedures itself");
      return this.registerText(utf8.decode(bytes));
    }
    const own = name ?? file.name;
    return Object.fromEntries([[own, await this.register(own, file.ext === ".tlp" ? assemblerText(bytes) : utf8.decode(bytes))]]);
  }

  /**
   * Puts all procedures of a text of the procedure language in the place of those with their names, or none. Answers the bounds of each by its name. Calls that are
   * answered before run the old code, and calls that are asked for after the answer run the new one. In session mode a server refuses it (901).
   */
  async replaceText(written) {
    const { replaced } = await this.#ask(`{"op":"replace","text":${text(written)}}`);
    return Object.fromEntries(replaced.map(({ name, bounds }) => [name, bounds]));
  }

  /** Runs a call to its end. Answers `{ call, reply, epoch }`. */
  async call(procedure, ...args) {
    return callOf(await this.#ask(`{"op":"call","proc":${text(procedure)},"args":${integers(args)}}`));
  }

  /**
   * Runs a call once, also where its answer is lost. It has this key, a text of 1 to 64 bytes that no other call has, as `newKey()` gives one. After a `Disconnected` or a
   * `TimedOut` it connects again where it has to, with growing pauses, and asks again: until the `patience` of `connect` is over. Answers `{ call, reply, epoch }`, or, where
   * the call was done before, `{ call, reply, stored }` with the number of the epoch in the server's store. A server without a store refuses it with 1015.
   */
  async callOnce(key, procedure, ...args) {
    const line = `{"op":"call","proc":${text(procedure)},"args":${integers(args)},"key":${keyText(key)}}`;
    return callOf(await untilAnswered(async () => {
      if (!this.isOpen) await this.reconnect();
      return this.#ask(line);
    }, this.#to?.patience ?? PATIENCE));
  }

  /** Runs 1 to 256 calls, given as [procedure, argument, ..], on 1 to 16 threads at once. Answers a `Batch`; a refused call is a `Refused` in it. */
  async batch(calls, workers = 1) {
    const wanted = Array.from(calls, ([procedure, ...args]) => `[${text(procedure)},${integers(args)}]`);
    const { batch } = await this.#ask(`{"op":"batch","workers":${integer(workers)},"calls":[${wanted.join(",")}]}`);
    const outcomes = new Batch();
    for (const each of batch) outcomes.push(each.error ? new Refused(each.error) : callOf(each));
    return outcomes;
  }

  /**
   * The record of a node, eight BigInts. It registers the procedure `treedb_read` when it is first asked, and is a call as others are. A node that isn't there
   * is a `MissingNode`.
   */
  async read(node) {
    return (await this.readAll([node]))[0];
  }

  /** The records of these nodes, each read by a call of its own: what others write meanwhile may stand in a later one and not in an earlier one. */
  async readAll(nodes) {
    await (this.#reads ??= this.#registerReader());
    const wanted = [...nodes];
    const parts = [];
    for (let start = 0; start < wanted.length; start += MAX_BATCH) parts.push(this.batch(wanted.slice(start, start + MAX_BATCH).map((node) => [READER, node])));
    const answers = (await Promise.all(parts)).flatMap((batch) => batch.answers());
    answers.forEach(({ reply }, place) => { if (reply.length === 0) throw new MissingNode(`no node ${wanted[place]}`); });
    return answers.map(({ reply }) => reply);
  }

  /** Adds a node with a record of zeros below each of these nodes, and answers the number of the first one. In session mode a server refuses it (901). */
  async grow(parents) {
    return (await this.#ask(`{"op":"grow","parents":${integers(parents)}}`)).grown;
  }

  /** Seals the current epoch, and answers its number. In session mode a server refuses it with 606 while a call is unfinished, and with 808 in the last epoch. */
  async seal() {
    return (await this.#ask('{"op":"seal"}')).sealed;
  }

  /** Ends the connection, once all requests before are answered. A client that is closed stays so. */
  async close() {
    this.#isClosed = true;
    if (this.#ended) return;
    try {
      await this.#ask('{"op":"close"}');
    } catch (reason) {
      if (!(reason instanceof Disconnected)) throw reason;
    } finally {
      this.#end(new Disconnected("the connection is closed"));
      this.#socket.end();
    }
  }

  /** `await using db = await Client.connect(..)` closes the connection at the end of its block. */
  async [Symbol.asyncDispose ?? Symbol.for("Symbol.asyncDispose")]() {
    await this.close();
  }

  async #registerReader() {
    try {
      await this.register(READER, READER_TEXT);
    } catch (reason) {
      // Another client has registered it.
      if (reason instanceof Refused && reason.number === NAME_TAKEN) return;
      this.#reads = null;
      throw reason;
    }
  }

  // Requests may be sent one after another without waiting: their answers come in the same order.
  #ask(line) {
    if (this.#ended) return Promise.reject(new Disconnected(this.#ended));
    return new Promise((answered, failed) => {
      const late = this.#timeout > 0 ? setTimeout(() => failed(new TimedOut(undefined, { mayHaveRun: true })), this.#timeout) : undefined;
      const settle = (done) => (value) => {
        clearTimeout(late);
        done(value);
      };
      this.#waiting.push({ answered: settle(answered), failed: settle(failed) });
      this.#socket.write(`${line}\n`);
    });
  }

  #take(piece) {
    const lines = (this.#rest + piece).split("\n");
    this.#rest = lines.pop();
    for (const line of lines) this.#answer(line);
    if (this.#rest.length > MAX_ANSWER) this.#break("the answer is too long");
  }

  // Hands a line to the request that is waiting for it longest. One that isn't waited for any more is passed over.
  #answer(line) {
    let answer;
    try {
      answer = answerOf(line);
    } catch {
      answer = null;
    }
    if (answer === null || typeof answer !== "object" || Array.isArray(answer)) {
      this.#break("the server's answer isn't one");
      return;
    }
    const asked = this.#waiting.shift();
    if (answer.error) asked?.failed(new Refused(answer.error));
    else asked?.answered(answer);
  }

  #break(reason) {
    this.#end(new Disconnected(reason));
    this.#socket.destroy();
  }

  // From now on each request fails for this reason, also those that are waiting, which may have been done.
  #end(reason) {
    this.#ended ??= reason.reason;
    for (const { failed } of this.#waiting.splice(0)) failed(reason.told(true));
  }
}

/**
 * Up to `size` connections, 4 if nothing is said: a request goes to one that answers none, or else to the one that has fewest to answer. The other words are those of
 * `Client.connect`. A connection is made when it is first needed, and anew where it was lost. A server works at the requests of one connection one after another.
 */
export class Pool {
  #to;
  #size;
  #places = [];
  #isClosed = false;

  constructor({ size = 4, ...to }) {
    if (!Number.isInteger(size) || size < 1) throw new RangeError("a pool has one connection at least");
    this.#to = to;
    this.#size = size;
  }

  /** As `Client.call`. */
  call(procedure, ...args) {
    return this.#with((db) => db.call(procedure, ...args));
  }

  /** As `Client.callOnce`: also where the server can't be reached at first. */
  callOnce(key, procedure, ...args) {
    return untilAnswered(() => this.#with((db) => db.callOnce(key, procedure, ...args)), this.#to.patience ?? PATIENCE);
  }

  /** As `Client.batch`. */
  batch(calls, workers) {
    return this.#with((db) => db.batch(calls, workers));
  }

  /** As `Client.read`. */
  read(node) {
    return this.#with((db) => db.read(node));
  }

  /** Ends the connections, once all requests before are answered. A pool that is closed stays so. */
  async close() {
    this.#isClosed = true;
    await Promise.all(this.#places.splice(0).map(async ({ client }) => (await client.catch(() => null))?.close()));
  }

  async #with(use) {
    if (this.#isClosed) throw new Disconnected("the pool is closed");
    const place = this.#place();
    place.requests += 1;
    try {
      const db = await place.client;
      if (!db.isOpen) await db.reconnect();
      return await use(db);
    } finally {
      place.requests -= 1;
    }
  }

  #place() {
    const least = this.#places.reduce((one, other) => (one !== null && one.requests <= other.requests ? one : other), null);
    if (least !== null && (least.requests === 0 || this.#places.length === this.#size)) return least;
    const place = { requests: 0, client: Client.connect(this.#to) };
    this.#places.push(place);
    // One that can't be made is left out.
    place.client.catch(() => { this.#places = this.#places.filter((it) => it !== place); });
    return place;
  }
}

// A socket that is connected.
function opened({ timeout = TIMEOUT, connectTimeout = timeout, patience: _, ...address }) {
  return new Promise((connected, failed) => {
    const socket = net.connect(address);
    const late = connectTimeout > 0 ? setTimeout(() => stop(new TimedOut("no connection in time")), connectTimeout) : undefined;
    const stop = (reason) => {
      clearTimeout(late);
      socket.destroy();
      failed(reason instanceof TreedbError ? reason : new Disconnected(reason.message || String(reason.code), { cause: reason }));
    };
    socket.once("error", stop);
    socket.once("connect", () => {
      clearTimeout(late);
      socket.off("error", stop);
      connected(socket);
    });
  });
}
