//! The command's options.

use crate::search::{GROUPS, Group};
use crate::store::{Maker, STORES};
use std::num::NonZero;
use std::path::PathBuf;
use std::str::FromStr;
use std::thread;

pub struct Options {
    pub seed: u64,
    /// How long random boards are compared.
    pub seconds: u64,
    pub threads: usize,
    /// Which entries are compared.
    pub groups: Vec<Group>,
    /// What is to be stored, and where.
    pub stores: Vec<(Maker, PathBuf)>,
    /// The card program, where it is to be compared.
    pub program: Option<PathBuf>,
}

impl Options {
    /// Reads the words of a command, or says what is wrong with them.
    pub fn read(mut words: impl Iterator<Item = String>) -> Result<Options, String> {
        let mut options = Options {
            seed: 1,
            seconds: 100,
            threads: thread::available_parallelism().map_or(1, NonZero::get),
            groups: GROUPS.map(|(_, group)| group).into(),
            stores: Vec::new(),
            program: None,
        };
        while let Some(name) = words.next() {
            let value = words.next().ok_or(format!("{name} has no value"))?;
            match name.as_str() {
                "--seed" => options.seed = number(&name, &value)?,
                "--seconds" => options.seconds = number(&name, &value)?,
                "--threads" => options.threads = number::<NonZero<usize>>(&name, &value)?.get(),
                "--only" => options.groups = vec![group(&value)?],
                "--program" => options.program = Some(value.into()),
                _ => options.stores.push((maker(&name)?, value.into())),
            }
        }
        Ok(options)
    }
}

fn number<N: FromStr>(name: &str, value: &str) -> Result<N, String> {
    let wrong = |_| format!("{name} does not take {value}");
    value.parse().map_err(wrong)
}

fn group(name: &str) -> Result<Group, String> {
    let group = GROUPS.iter().find(|(group, _)| *group == name);
    group.map(|&(_, group)| group).ok_or(format!("--only does not take {name}"))
}

fn maker(name: &str) -> Result<Maker, String> {
    let store = STORES.iter().find(|(option, _)| *option == name);
    store.map(|&(_, maker)| maker).ok_or(format!("{name} is no option"))
}
