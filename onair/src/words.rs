//! What one process is told by another: words of the form name=value.

use std::collections::BTreeMap;
use std::fmt::Display;
use std::str::FromStr;

#[derive(Clone, Debug, Default, PartialEq, Eq)]
pub struct Words(BTreeMap<String, String>);

impl Words {
    pub fn of<'a>(words: impl Iterator<Item = &'a str>) -> Words {
        let pairs = words.filter_map(|word| word.split_once('='));
        Words(pairs.map(|(name, value)| (name.to_string(), value.to_string())).collect())
    }

    pub fn with(mut self, name: &str, value: impl Display) -> Words {
        self.0.insert(name.to_string(), value.to_string());
        self
    }

    pub fn get<T: FromStr>(&self, name: &str) -> Result<T, String> {
        let value = self.0.get(name).ok_or_else(|| format!("{name} is not said"))?;
        value.parse().map_err(|_| format!("{name}={value} can't be read"))
    }

    /// Numbers with commas between.
    pub fn list(&self, name: &str) -> Result<Vec<u64>, String> {
        let text: String = self.get(name)?;
        let parts = text.split(',').filter(|part| !part.is_empty());
        parts.map(|part| part.parse().map_err(|_| format!("{name}={text} can't be read"))).collect()
    }

    pub fn lines(&self) -> impl Iterator<Item = String> + '_ {
        self.0.iter().map(|(name, value)| format!("{name}={value}"))
    }
}

/// A list as `list` reads it.
pub fn listed(numbers: impl IntoIterator<Item = impl Display>) -> String {
    let texts: Vec<String> = numbers.into_iter().map(|number| number.to_string()).collect();
    texts.join(",")
}

#[cfg(test)]
mod tests {
    use super::*;

    #[test]
    fn words_read_back() {
        let words = Words::default().with("late", listed([3, 5])).with("title", 7).with("none", listed([0u64; 0]));
        let lines: Vec<String> = words.lines().collect();
        let read = Words::of(lines.iter().map(String::as_str));
        assert_eq!(read, words);
        assert_eq!((read.list("late"), read.get("title"), read.list("none")), (Ok(vec![3, 5]), Ok(7), Ok(vec![])));
        assert!(read.get::<u64>("late").is_err());
    }
}
