//! The ways in which calls are asked for.

/// How many requests one write has where they are pipelined, and how many calls a batch has.
const BURST: usize = 256;

/// How many connections there are where there is more than one.
const CONNECTIONS: usize = 8;

#[derive(Clone, Copy, Debug, PartialEq, Eq, Hash)]
pub enum Way {
    /// A connection, and a request after the answer to the one before.
    OneByOne,
    /// A connection, many requests in one write, and then their answers are read.
    Pipelined,
    /// A connection, and requests of a batch each, for which treedb has so many workers.
    Batch { workers: u8 },
    /// Eight connections at once, one by one on each.
    Eight,
}

impl Way {
    /// The ways in which every side can be asked.
    pub const COMMON: [Way; 3] = [Way::OneByOne, Way::Pipelined, Way::Eight];

    /// The ways in which treedb can be asked.
    pub const ALL: [Way; 6] = [
        Way::OneByOne,
        Way::Pipelined,
        Way::Batch { workers: 1 },
        Way::Batch { workers: 2 },
        Way::Batch { workers: 4 },
        Way::Eight,
    ];

    /// The way in which the others are asked beside it.
    pub fn beside(self) -> Way {
        match self {
            Way::Batch { .. } => Way::Pipelined,
            way => way,
        }
    }

    pub fn connections(self) -> usize {
        match self {
            Way::Eight => CONNECTIONS,
            _ => 1,
        }
    }

    /// How many calls are asked for before the first answer is waited for.
    pub fn burst(self) -> usize {
        match self {
            Way::OneByOne | Way::Eight => 1,
            Way::Pipelined | Way::Batch { .. } => BURST,
        }
    }

    /// Whether calls are done in the order in which they were asked for.
    pub fn keeps_order(self) -> bool {
        matches!(self, Way::OneByOne | Way::Pipelined)
    }

    /// Its name in a table.
    pub fn name(self) -> String {
        match self {
            Way::OneByOne => "one by one".to_string(),
            Way::Pipelined => "pipelined".to_string(),
            Way::Batch { workers: 1 } => "batch, 1 worker".to_string(),
            Way::Batch { workers } => format!("batch, {workers} workers"),
            Way::Eight => "eight connections".to_string(),
        }
    }
}
