//! Stand-in for the crate `itertools`: only `join`.

use std::fmt::Display;

pub trait Itertools: Iterator {
    /// The items' texts with `separator` between them.
    fn join(&mut self, separator: &str) -> String
    where
        Self::Item: Display,
    {
        let texts: Vec<String> = self.map(|item| item.to_string()).collect();
        texts.join(separator)
    }
}

impl<T: Iterator + ?Sized> Itertools for T {}
