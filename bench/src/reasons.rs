//! Why some rows are short.

/// Why the rows of a part are short.
pub struct Reason {
    /// What the part's heading begins with.
    heading: &'static str,
    /// Words that such a row has.
    words: &'static str,
    /// What the limit is, and how it was found.
    pub text: &'static str,
}

const fn reason(heading: &'static str, words: &'static str, text: &'static str) -> Reason {
    Reason { heading, words, text }
}

/// The first that fits a row is its reason.
const REASONS: [Reason; 12] = [
    reason("A call alone", "", INTERPRETER),
    reason("A core", "", CORE),
    reason("`Running`", "product alone", ORDER_OF_RUNNING),
    reason("`Running`", "nodes of eight children", END_OF_A_CALL),
    reason("`Running`", "", CORE),
    reason("The order and the audit", "what an event more", GROWTH),
    reason("The order and the audit", "product alone: `audit`", AUDIT_NANOSECONDS),
    reason("The order and the audit", "4,096 open", MANY_OPEN),
    reason("The order and the audit", "a legal history", TRUSTING),
    reason("Engines", "product alone", WORKERS),
    reason("Engines", "", TURN),
    reason("A procedure a transaction", "", TRANSACTION),
];

const INTERPRETER: &str = "**The interpreter.** The compiler makes one function of a whole call on both sides, and a change in one handler moves the others: \
a line less in the twin's `end` took its `get` and `put` from 1.2 to 1.0 ns a step. What the product does more: an addition finds out by two \
comparisons that it overflows, where the twin's asks the processor's flag (0.4 ns, by the twin with the same comparisons), and a register that \
holds a node by the verifier's proof is asked once more whether it does.";

const CORE: &str = "**A step of a core** comes to 0.78 to 1.05 of the twin's speed by how both are built, from the same sources. What the product does more \
than the faster twin wasn't found: an answer goes to the caller without a call on both sides, and the state of a call stands behind two indices on both.";

const END_OF_A_CALL: &str = "**Nodes of eight children.** A call has a lock, a free and its end there, and the end is half of the time by \
`perf`. It takes no memory: so the reply, with room for 32 values, is copied twice. And it gives back two shared pointers by atomic \
instructions. The twin takes memory for the values that there are, and shares nothing with a call. But how the twin is built counts as \
much: without the order it took 18 ns an event in one small harness and 30 in another, and the product 25 and 28.";

const ORDER_OF_RUNNING: &str = "**What the order adds to a core** is the difference of two times of 30 to 150 ns an event, and came to 3 to 15 ns in several tables. \
The row beside the twin's order says what it costs here.";

const GROWTH: &str = "**An event more of a long trail** costs more than one of a short trail, on both sides: a trail of 1,048,576 events takes 40 megabytes, and \
one of 131,072 five, which is nearer to a processor.";

const AUDIT_NANOSECONDS: &str = "**30 ns an event** are for a machine at full speed: where this table was made the twin takes longer than that, too.";

const MANY_OPEN: &str = "**4,096 calls open at once.** The call before which a new one goes is looked for from the end of the order, and here it stands at the \
front: by `perf` this search takes four fifths of the time on both sides, and to make room at the front a sixth of the product's and a fourteenth of the \
twin's, since the kit's `Vec` moves what stands behind by a loop of its own.";

const TRUSTING: &str = "**`order_of` beside a twin that assumes that the rules are kept.** `order_of` is for every history: it checks each event before it places it, \
and where one breaks a rule, the plain definition places all of them. The rows without that remark stand beside a twin that does so too. `Running` and \
an engine keep the rules, and check nothing.";

const WORKERS: &str = "**More workers.** Where others use the machine's processors too, two workers rarely both get a whole one: with 10,000 instructions between two \
turns the twin goes 2.5 to 3.4 times as fast on four workers as on one, and the product 2.2 to 3.1 times. On one path, and with 20 instructions between two \
turns, the lock goes from processor to processor, and both sides lose by more workers.";

const TURN: &str = "**A turn of an engine.** Under the lock the state at which a call's instructions began is compared with the kept one, and the state after them is copied, on both \
sides. The product's has some 1,040 bytes and the twin's 800: it also keeps how many nodes the tree has and how many children each held node has, so that no shapes are compared. Besides, a \
short call pays for its admission, its receipt and the session's list, which `close` compares with the table.";

const TRANSACTION: &str = "**A procedure a transaction through an engine.** A call has thirteen locks, frees and returns. Each is a turn through the lock, as above. In a core the \
same call needs no lock.";

/// Why such a row is short, where that is known.
pub fn of(heading: &str, work: &str) -> Option<&'static Reason> {
    REASONS.iter().find(|it| heading.starts_with(it.heading) && work.contains(it.words))
}
