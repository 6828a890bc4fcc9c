//! Options of a command: `--name value`, or `--name` alone.

use std::fmt::Display;
use std::net::SocketAddr;
use std::str::FromStr;

use super::Stop;

/// The options that were given and not asked for yet.
pub struct Options {
    rest: Vec<String>,
}

impl Options {
    /// Nothing is read yet.
    pub fn new(arguments: Vec<String>) -> Options {
        Options { rest: arguments }
    }

    /// Whether `--name` was given.
    pub fn flag(&mut self, name: &str) -> bool {
        let place = self.rest.iter().position(|argument| argument == name);
        place.map(|place| self.rest.remove(place)).is_some()
    }

    /// The value of `--name`, if it was given.
    pub fn value<T: FromStr>(&mut self, name: &str) -> Result<Option<T>, Stop>
    where
        T::Err: Display,
    {
        let Some(place) = self.rest.iter().position(|argument| argument == name) else { return Ok(None) };
        if self.rest.get(place + 1).is_none_or(|value| value.starts_with("--")) {
            return Err(Stop::Usage(format!("{name} needs a value")));
        }
        let value = self.rest.remove(place + 1);
        self.rest.remove(place);
        value.parse().map(Some).map_err(|why| Stop::Usage(format!("{name} {value}: {why}")))
    }

    /// The value of `--name`, which must be there.
    pub fn needed<T: FromStr>(&mut self, name: &str) -> Result<T, Stop>
    where
        T::Err: Display,
    {
        self.value(name)?.ok_or_else(|| Stop::Usage(format!("{name} is missing")))
    }

    /// An address that must be there.
    pub fn address(&mut self, name: &str) -> Result<SocketAddr, Stop> {
        let text: String = self.needed(name)?;
        text.parse().map_err(|_| Stop::Usage(format!("{name} {text}: not an address such as 127.0.0.1:7001")))
    }

    /// A percentage as a share of 1; 0 where it was not given.
    pub fn percent(&mut self, name: &str) -> Result<f64, Stop> {
        let percent: f64 = self.value(name)?.unwrap_or(0.0);
        if (0.0..=100.0).contains(&percent) {
            return Ok(percent / 100.0);
        }
        Err(Stop::Usage(format!("{name} {percent}: a percentage is 0 to 100")))
    }

    /// A range such as 2-9, or 9 for `least`-9.
    pub fn range(&mut self, name: &str, least: u64) -> Result<Option<(u64, u64)>, Stop> {
        let Some(text) = self.value::<String>(name)? else { return Ok(None) };
        let (from, to) = text.split_once('-').map_or((None, text.as_str()), |(from, to)| (Some(from), to));
        let from = from.map_or(Ok(least), str::parse);
        match (from, to.parse()) {
            (Ok(from), Ok(to)) if least <= from && from <= to => Ok(Some((from, to))),
            _ => Err(Stop::Usage(format!("{name} {text}: not a number or a range from {least} on, such as 2-9"))),
        }
    }

    /// Whatever is left is unknown.
    pub fn end(self) -> Result<(), Stop> {
        match self.rest.first() {
            Some(unknown) => Err(Stop::Usage(format!("unknown option {unknown}"))),
            None => Ok(()),
        }
    }
}
