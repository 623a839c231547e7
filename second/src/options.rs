//! Options of the form `--name value`, for the commands that take any.

use crate::observe::Programs;
use std::collections::HashMap;
use std::path::PathBuf;

pub struct Options(HashMap<String, String>);

impl Options {
    /// Takes up the words of a command line; only known names pass.
    pub fn parse(words: &[String], known: &[&str]) -> Result<Self, String> {
        let mut found = HashMap::new();
        for pair in words.chunks(2) {
            let name = pair[0].strip_prefix("--").unwrap_or("");
            if !known.contains(&name) {
                let names = known.join(" --");
                return Err(format!("expected one of --{names}, found {:?}", pair[0]));
            }
            let Some(value) = pair.get(1) else {
                return Err(format!("expected a value after --{name}"));
            };
            found.insert(name.to_string(), value.clone());
        }
        Ok(Options(found))
    }

    pub fn path(&self, name: &str) -> Option<PathBuf> {
        self.0.get(name).map(PathBuf::from)
    }

    pub fn required_path(&self, name: &str) -> Result<PathBuf, String> {
        self.path(name).ok_or(format!("expected --{name} PATH"))
    }

    pub fn number(&self, name: &str) -> Result<Option<u64>, String> {
        match self.0.get(name).map(|value| (value, value.parse())) {
            None => Ok(None),
            Some((_, Ok(number))) => Ok(Some(number)),
            Some((value, Err(_))) => Err(format!("--{name}: expected a number, found {value:?}")),
        }
    }

    pub fn required_number(&self, name: &str) -> Result<u64, String> {
        self.number(name)?
            .ok_or(format!("expected --{name} NUMBER"))
    }

    pub fn programs(&self) -> Result<Programs, String> {
        Ok(Programs {
            hlist: self.required_path("hlist")?,
            hfile: self.required_path("hfile")?,
            hrun: self.required_path("hrun")?,
            hscore: self.required_path("hscore")?,
        })
    }
}
