/** An argument: a BigInt of 64 bits, or a number that is a safe integer. */
export type Integer = number | bigint;

/** What a registered procedure does at most on any tree. */
export interface Bounds {
  readonly steps: number;
  readonly locks: number;
  readonly emits: number;
}

/** A call that was admitted and is done: its number among the calls of its epoch, its reply, and the number of the epoch. */
export interface Answer {
  readonly call: number;
  readonly reply: bigint[];
  readonly epoch: number;
}

/** What came of the call that had the key before. `stored` is the number of its epoch in the server's store, which counts them through all starts. */
export interface Recalled {
  readonly call: number;
  readonly reply: bigint[];
  readonly stored: number;
}

/** A call of a batch: its procedure, and its arguments. */
export type Call = readonly [procedure: string, ...args: Integer[]];

/**
 * Where a server listens, and time limits in milliseconds: for each answer, 30,000 if nothing is said, and for the connection, which has that of an answer where it isn't said; 0 is none.
 * `patience`, 60,000 if nothing is said, is for how long `callOnce` asks again.
 */
export type ConnectOptions = ({ port: number; host?: string; path?: undefined } | { path: string }) & { timeout?: number; connectTimeout?: number; patience?: number };

/** A key for a call that no other call has. */
export function newKey(): string;

/** When a number is answered, and what to do then. */
export interface Fault {
  readonly meaning: string;
  readonly advice: string;
}

export const FAULTS: Readonly<Record<number, Fault>>;

/** The base of all errors of this package. */
export class TreedbError extends Error {}

/** The server refused a request, and nothing was changed. */
export class Refused extends TreedbError {
  constructor(numbers: number[]);
  /** The fault's number, and then its parts. */
  readonly numbers: number[];
  readonly number: number;
  readonly meaning: string;
  readonly advice: string;
}

/** The base of `Disconnected` and `TimedOut`: a request has no answer. */
export class Unanswered extends TreedbError {
  constructor(reason: string, options?: { mayHaveRun?: boolean; cause?: unknown });
  readonly reason: string;
  /** Whether the request may have been done all the same. Where it is false, nothing was sent. */
  readonly mayHaveRun: boolean;
}

/** There is no connection: the server can't be reached, or the connection ended before the answer. */
export class Disconnected extends Unanswered {
  constructor(reason?: string, options?: { mayHaveRun?: boolean; cause?: unknown });
}

/** The answer didn't come in time. */
export class TimedOut extends Unanswered {
  constructor(reason?: string, options?: { mayHaveRun?: boolean; cause?: unknown });
}

/** The tree has no node of this number. */
export class MissingNode extends TreedbError {}

/** What became of a batch: for each of its calls, in their order, an answer or a refusal. */
export class Batch extends Array<Answer | Refused> {
  /** The answers; throws the first refusal. */
  answers(): Answer[];
  /** The replies; throws the first refusal. */
  replies(): bigint[][];
  refusals(): Refused[];
}

/** A connection to a server. Requests may be sent without waiting for the answers of those before. */
export class Client {
  constructor(socket: import("node:net").Socket, timeout?: number, to?: ConnectOptions | null);
  static connect(options: ConnectOptions): Promise<Client>;
  static connect(port: number, host?: string): Promise<Client>;
  /** What a server says of itself, asked at its control. */
  static status(to: ConnectOptions): Promise<Record<string, number>>;
  /** Has a server with a store copy it into the file of that name, asked at its control. */
  static snapshot(name: string, to: ConnectOptions): Promise<void>;
  /** Asks a server to end, at its control. */
  static stop(to: ConnectOptions): Promise<void>;
  /** Whether there is a connection, as far as this client knows. */
  readonly isOpen: boolean;
  /** Connects anew to where the client was made for, if there is no connection. */
  reconnect(): Promise<void>;
  /** Registers a procedure's assembler text under a name. */
  register(name: string, asm: string): Promise<Bounds>;
  /** Registers all procedures of a text of the procedure language, or none. */
  registerText(text: string): Promise<Record<string, Bounds>>;
  /** Puts all procedures of a text of the procedure language in the place of those with their names, or none. */
  replaceText(text: string): Promise<Record<string, Bounds>>;
  /** Registers the procedures of a file: all of a `.tdb`; the one of a `.tlp` or of an assembler text, under `name` or the file's name without its ending. */
  registerFile(path: string | URL, name?: string): Promise<Record<string, Bounds>>;
  /** Runs a call to its end. */
  call(procedure: string, ...args: Integer[]): Promise<Answer>;
  /** Runs a call once, also where its answer is lost: it asks again with this key, a text of 1 to 64 bytes, on new connections. */
  callOnce(key: string, procedure: string, ...args: Integer[]): Promise<Answer | Recalled>;
  /** Runs 1 to 256 calls, on 1 to 16 threads at once. */
  batch(calls: Iterable<Call>, workers?: number): Promise<Batch>;
  /** The record of a node, eight BigInts. */
  read(node: Integer): Promise<bigint[]>;
  readAll(nodes: Iterable<Integer>): Promise<bigint[][]>;
  /** Adds a node below each of these, and answers the number of the first one. In session mode a server refuses it (901). */
  grow(parents: Iterable<Integer>): Promise<number>;
  /** Seals the current epoch, and answers its number. */
  seal(): Promise<number>;
  /** Ends the connection, once all requests before are answered. */
  close(): Promise<void>;
  [Symbol.asyncDispose](): Promise<void>;
}

/** Up to `size` connections, 4 if nothing is said: a request goes to one that answers none, or else to the one that has fewest to answer. */
export class Pool {
  constructor(options: ConnectOptions & { size?: number });
  call(procedure: string, ...args: Integer[]): Promise<Answer>;
  callOnce(key: string, procedure: string, ...args: Integer[]): Promise<Answer | Recalled>;
  batch(calls: Iterable<Call>, workers?: number): Promise<Batch>;
  read(node: Integer): Promise<bigint[]>;
  /** Ends the connections, once all requests before are answered. */
  close(): Promise<void>;
}
