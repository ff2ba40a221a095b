//! The tree, and the calls that every side makes on it.

/// How many nodes the tree has.
pub const NODES: i64 = 4_096;

/// How many children a node has, but for the last ones.
pub const CHILDREN: i64 = 8;

/// The nodes below this one have all their children.
const WHOLE: i64 = 511;

/// The child numbers of the root below this one lead to nodes that all have four levels under the root.
const DEEP: i64 = 6;

/// What a call adds is 1 to this.
const AMOUNT: i64 = 100;

/// The fields of a node that the sides compare.
pub type Record = [i64; 4];

/// The parent of a node that isn't the root.
pub fn parent(node: i64) -> i64 {
    (node - 1) / CHILDREN
}

/// Which of its parent's children a node is.
pub fn place(node: i64) -> i64 {
    (node - 1) % CHILDREN
}

/// The children of a node.
pub fn children(node: i64) -> impl Iterator<Item = i64> {
    (CHILDREN * node + 1..=CHILDREN * node + CHILDREN).filter(|&child| child < NODES)
}

/// What a node has at the start.
pub fn record(node: i64) -> Record {
    [node, 0, 0, 0]
}

/// The procedures. Each side has them in its own language, in `procedures/`.
#[derive(Clone, Copy, Debug, PartialEq, Eq, Hash)]
pub enum Work {
    /// adds to a node: one lock
    Add,
    /// goes down four levels and adds to a leaf: five locks
    Path,
    /// sums the children of a node: nine locks
    Sum,
    /// computes for long on two nodes: two locks
    Long,
}

impl Work {
    pub const ALL: [Work; 4] = [Work::Add, Work::Path, Work::Sum, Work::Long];

    /// The procedure's name.
    pub fn name(self) -> &'static str {
        match self {
            Work::Add => "add",
            Work::Path => "path",
            Work::Sum => "sum",
            Work::Long => "long",
        }
    }

    /// How many arguments it takes.
    pub fn arity(self) -> usize {
        match self {
            Work::Add | Work::Long => 2,
            Work::Path => 5,
            Work::Sum => 1,
        }
    }

    /// How many calls are timed, and how many are made before them. A server of treedb has room for 4,096 calls in an epoch.
    pub fn counts(self) -> Counts {
        match self {
            Work::Long => Counts { before: 64, timed: 768 },
            _ => Counts { before: 256, timed: 3_840 },
        }
    }

    /// Whether what a call answers depends on which calls came before it.
    pub fn answers_by_order(self) -> bool {
        matches!(self, Work::Add | Work::Path)
    }

    /// The arguments of the next call.
    fn args(self, random: &mut Random) -> Vec<i64> {
        match self {
            Work::Add => vec![random.below(NODES), 1 + random.below(AMOUNT)],
            Work::Path => {
                let [c1, c2, c3] = [(); 3].map(|()| random.below(CHILDREN));
                vec![random.below(DEEP), c1, c2, c3, 1 + random.below(AMOUNT)]
            }
            Work::Sum => vec![random.below(WHOLE)],
            Work::Long => vec![random.below(WHOLE), random.below(CHILDREN)],
        }
    }
}

#[derive(Clone, Copy)]
pub struct Counts {
    pub before: usize,
    pub timed: usize,
}

/// A call of a procedure.
#[derive(Clone, Debug, PartialEq)]
pub struct Call {
    pub work: Work,
    pub args: Vec<i64>,
}

/// So many calls, which a seed settles.
pub fn calls(work: Work, count: usize, seed: u64) -> Vec<Call> {
    let mut random = Random(seed);
    (0..count).map(|_| Call { work, args: work.args(&mut random) }).collect()
}

/// The generator SplitMix64.
struct Random(u64);

impl Random {
    fn next(&mut self) -> u64 {
        self.0 = self.0.wrapping_add(0x9e37_79b9_7f4a_7c15);
        let mixed = (self.0 ^ (self.0 >> 30)).wrapping_mul(0xbf58_476d_1ce4_e5b9);
        let mixed = (mixed ^ (mixed >> 27)).wrapping_mul(0x94d0_49bb_1331_11eb);
        mixed ^ (mixed >> 31)
    }

    /// A number from 0 to below this one, which is small.
    fn below(&mut self, bound: i64) -> i64 {
        ((u128::from(self.next()) * bound as u128) >> 64) as i64
    }
}

#[cfg(test)]
mod tests {
    use super::*;

    /// The numbers that the generator's authors give for the seed 1234567.
    #[test]
    fn the_generator_is_splitmix64() {
        let mut random = Random(1_234_567);
        let first = [random.next(), random.next(), random.next()];
        assert_eq!(first, [6457827717110365317, 3203168211198807973, 9817491932198370423]);
    }

    #[test]
    fn a_seed_settles_the_calls() {
        assert_eq!(calls(Work::Path, 50, 3), calls(Work::Path, 50, 3));
        assert_ne!(calls(Work::Path, 50, 3), calls(Work::Path, 50, 4));
    }

    #[test]
    fn calls_have_as_many_arguments_as_their_procedures() {
        for work in Work::ALL {
            assert!(calls(work, 5, 1).iter().all(|call| call.args.len() == work.arity()));
        }
    }

    #[test]
    fn children_know_their_parent() {
        for node in 0..NODES {
            for (nth, child) in children(node).enumerate() {
                assert_eq!((parent(child), place(child)), (node, nth as i64));
            }
        }
        assert_eq!((0..NODES).map(|node| children(node).count()).sum::<usize>(), NODES as usize - 1);
    }

    #[test]
    fn the_nodes_of_all_calls_are_there() {
        for call in calls(Work::Sum, 2_000, 1) {
            assert_eq!(children(call.args[0]).count(), CHILDREN as usize);
        }
        for call in calls(Work::Path, 2_000, 1) {
            let leaf = call.args[..4].iter().fold(0, |node, &nth| children(node).nth(nth as usize).unwrap());
            assert!(children(leaf).next().is_none());
        }
    }
}
