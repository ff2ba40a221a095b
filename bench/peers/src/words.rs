//! The words with which the program is called.

use std::path::PathBuf;

use crate::calls::Work;
use crate::keeping::Keeping;
use crate::Result;

pub const USAGE: &str = "usage: peers --treedb PROGRAM --procedures FILE --folder FOLDER --results FOLDER [--rounds N] [--redis PORT] [--postgresql PORT] [--durable] [add|path|sum|long]..";

/// How many rounds there are where nobody says it.
const ROUNDS: usize = 11;

#[derive(Debug, PartialEq)]
pub struct Words {
    pub treedb: PathBuf,
    /// the text of treedb's procedures
    pub procedures: PathBuf,
    /// where files may be made
    pub folder: PathBuf,
    /// where the tables are written
    pub results: PathBuf,
    pub rounds: usize,
    pub redis: Option<u16>,
    pub postgresql: Option<u16>,
    /// where the servers that run keep calls
    pub keeping: Keeping,
    pub works: Vec<Work>,
}

impl Words {
    pub fn read(words: impl Iterator<Item = String>) -> Result<Words> {
        let [mut treedb, mut procedures, mut folder, mut results] = [None, None, None, None];
        let (mut rounds, mut redis, mut postgresql, mut works) = (ROUNDS, None, None, Vec::new());
        let (mut words, mut keeping) = (words, Keeping::Memory);
        while let Some(word) = words.next() {
            if let Some(work) = Work::ALL.into_iter().find(|work| work.name() == word) {
                works.push(work);
                continue;
            }
            if word == "--durable" {
                keeping = Keeping::Disk;
                continue;
            }
            let value = words.next().ok_or(format!("nothing stands behind {word}"))?;
            match word.as_str() {
                "--treedb" => treedb = Some(PathBuf::from(value)),
                "--procedures" => procedures = Some(PathBuf::from(value)),
                "--folder" => folder = Some(PathBuf::from(value)),
                "--results" => results = Some(PathBuf::from(value)),
                "--rounds" => rounds = value.parse()?,
                "--redis" => redis = Some(value.parse()?),
                "--postgresql" => postgresql = Some(value.parse()?),
                _ => return Err(format!("there is no {word}").into()),
            }
        }
        if redis.is_none() && postgresql.is_none() {
            return Err("there is no other server".into());
        }
        if works.is_empty() {
            works = keeping.works().to_vec();
        }
        if let Some(work) = works.iter().find(|work| !keeping.works().contains(work)) {
            return Err(format!("--durable has no {}", work.name()).into());
        }
        Ok(Words {
            treedb: treedb.ok_or("--treedb is missing")?,
            procedures: procedures.ok_or("--procedures is missing")?,
            folder: folder.ok_or("--folder is missing")?,
            results: results.ok_or("--results is missing")?,
            rounds: rounds.max(1),
            redis,
            postgresql,
            keeping,
            works,
        })
    }
}

#[cfg(test)]
mod tests {
    use super::*;

    fn read(words: &str) -> Result<Words> {
        Words::read(words.split(' ').map(String::from))
    }

    #[test]
    fn all_words() {
        let wanted = Words {
            treedb: "t".into(),
            procedures: "p".into(),
            folder: "f".into(),
            results: "o".into(),
            rounds: 3,
            redis: Some(1),
            postgresql: Some(2),
            keeping: Keeping::Memory,
            works: vec![Work::Sum, Work::Add],
        };
        let words = "--treedb t --procedures p --folder f --results o --rounds 3 --redis 1 --postgresql 2 sum add";
        assert_eq!(read(words).unwrap(), wanted);
        let few = read("--treedb t --procedures p --folder f --results o --redis 1").unwrap();
        assert_eq!((few.rounds, few.postgresql, few.works), (ROUNDS, None, Work::ALL.to_vec()));
        let durable = read("--treedb t --procedures p --folder f --durable --results o --redis 1").unwrap();
        assert_eq!((durable.keeping, durable.works), (Keeping::Disk, vec![Work::Add]));
    }

    #[test]
    fn other_words_are_errors() {
        let whole = "--treedb t --procedures p --folder f --results o";
        for words in [whole, "--redis", "--redis x", "--speed 3", "--redis 1", &format!("{whole} --redis 1 --durable sum")] {
            assert!(read(words).is_err(), "{words}");
        }
    }
}
