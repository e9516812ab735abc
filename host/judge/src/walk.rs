//! The load's steps once more, over the records alone: document 01, "the load". The crate's errors
//! do not say which record named a missing config, and the crate counts no merges, so these come
//! from here. Where the crate does say, both are compared (see `answer.rs`).

use std::collections::HashSet;

use crate::book::{Record, Refusal, refused};

/// What is met: a refusal, and for 8 the path that leads to no config.
pub struct Met {
    pub refusal: Refusal,
    pub missing: Option<String>,
}

pub struct Walk<'a> {
    records: &'a [Record],
    chain: Vec<usize>,
    loaded: HashSet<usize>,
}

/// The record that a path means, by 01's `get_tsconfig`.
pub fn locate(records: &[Record], path: &str) -> Option<usize> {
    let number = |path: &str| records.iter().position(|record| record.path == path);
    if let Some(found) = number(path) {
        return Some(found);
    }
    let below = if path.ends_with('/') {
        path.to_string()
    } else {
        format!("{path}/")
    };
    if path.starts_with('/') && records.iter().any(|record| record.path.starts_with(&below)) {
        return number(&format!("{below}tsconfig.json"));
    }
    number(&format!("{path}.json"))
}

fn folder(path: &str) -> &str {
    match path.rfind('/').expect("a record's path is absolute") {
        0 => "/",
        at => &path[..at],
    }
}

/// A config's name read from a record's folder.
fn named_from(record: &Record, name: &str) -> String {
    if name.is_empty() || name.starts_with('/') {
        return name.to_string();
    }
    let mut pieces: Vec<&str> = folder(&record.path)
        .split('/')
        .filter(|piece| !piece.is_empty())
        .collect();
    for piece in name.split('/') {
        match piece {
            "" | "." => {}
            ".." => {
                pieces.pop();
            }
            piece => pieces.push(piece),
        }
    }
    format!("/{}", pieces.join("/"))
}

fn met<T>(number: u8, place: usize) -> Result<T, Met> {
    Err(Met {
        refusal: refused::<()>(number, place).unwrap_err(),
        missing: None,
    })
}

impl<'a> Walk<'a> {
    pub fn new(records: &'a [Record]) -> Self {
        Self {
            records,
            chain: vec![],
            loaded: HashSet::new(),
        }
    }

    fn found(&self, path: String, place: usize) -> Result<usize, Met> {
        locate(self.records, &path).ok_or(Met {
            refusal: Refusal { number: 8, place },
            missing: Some(path),
        })
    }

    /// Loads the asked config; its record, or what is met first.
    pub fn asked(mut self, path: &str) -> Result<usize, Met> {
        let asked = self.found(path.to_string(), 65_535)?;
        self.load(asked)?;
        for reference in &self.records[asked].references {
            let named = named_from(&self.records[asked], reference);
            let referenced = self.found(named, asked)?;
            if referenced == asked {
                return met(10, asked);
            }
            self.entries(referenced)?;
            self.parents(referenced)?;
        }
        Ok(asked)
    }

    fn load(&mut self, record: usize) -> Result<(), Met> {
        if self.chain.contains(&record) {
            return met(9, record);
        }
        if self.loaded.contains(&record) {
            return Ok(());
        }
        self.entries(record)?;
        self.chain.push(record);
        self.parents(record)?;
        self.chain.pop();
        self.loaded.insert(record);
        Ok(())
    }

    fn entries(&self, record: usize) -> Result<(), Met> {
        for entry in &self.records[record].extends {
            match entry.as_bytes().first() {
                None => return met(11, record),
                Some(b'/' | b'.') => {}
                Some(_) => return met(12, record),
            }
        }
        Ok(())
    }

    fn parents(&mut self, record: usize) -> Result<(), Met> {
        for entry in self.records[record].extends.iter().rev() {
            let named = named_from(&self.records[record], entry);
            let parent = self.found(named, record)?;
            self.load(parent)?;
        }
        Ok(())
    }
}

/// The extends entries of the distinct configs in the line of one that loads.
pub fn merges(records: &[Record], asked: usize) -> usize {
    let mut seen = HashSet::from([asked]);
    let mut left = vec![asked];
    let mut count = 0;
    while let Some(record) = left.pop() {
        for entry in &records[record].extends {
            count += 1;
            let named = named_from(&records[record], entry);
            let parent = locate(records, &named).expect("a config that loads finds its parents");
            if seen.insert(parent) {
                left.push(parent);
            }
        }
    }
    count
}
