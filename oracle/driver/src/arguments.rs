//! The command line: a word, then `--name value` pairs.

use reference::shape::{OPS, Op};
use std::collections::HashMap;
use std::env;
use std::str::FromStr;

/// The command and its options.
pub struct Arguments {
    pub command: String,
    options: HashMap<String, String>,
}

impl Arguments {
    /// Reads the command line.
    pub fn read() -> Result<Self, String> {
        let mut words = env::args().skip(1);
        let command = words.next().unwrap_or_default();
        let mut options = HashMap::new();
        while let Some(word) = words.next() {
            let name = word.strip_prefix("--").ok_or(format!("{word}: not an option"))?;
            let value = words.next().ok_or(format!("{word}: its value is missing"))?;
            options.insert(name.to_string(), value);
        }
        Ok(Self { command, options })
    }

    /// The text of an option, if it is there.
    pub fn text(&self, name: &str) -> Option<&str> {
        self.options.get(name).map(String::as_str)
    }

    /// The value of an option, or the one that stands for it.
    pub fn value<T: FromStr>(&self, name: &str, usual: T) -> Result<T, String> {
        match self.text(name) {
            None => Ok(usual),
            Some(text) => text.parse().map_err(|_| format!("--{name} {text}: not understood")),
        }
    }

    /// The operations chosen, all if none is named.
    pub fn ops(&self) -> Result<Vec<Op>, String> {
        let Some(text) = self.text("ops") else {
            return Ok(OPS.to_vec());
        };
        let named = |name| Op::named(name).ok_or(format!("{name}: no operation"));
        text.split(',').map(named).collect()
    }
}
