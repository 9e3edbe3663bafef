//! The words of a command line: options, each with a number.

/// What is asked for, by name.
pub struct Asked {
    numbers: Vec<(String, usize)>,
    flags: Vec<String>,
}

impl Asked {
    /// Reads words such as `--pes 4`, and `--journal` where nothing follows; `None` where they are others.
    pub fn read(options: &[&str], flags: &[&str]) -> Option<Self> {
        let mut asked = Asked { numbers: Vec::new(), flags: Vec::new() };
        let mut words = std::env::args().skip(1);
        while let Some(word) = words.next() {
            if flags.contains(&word.as_str()) {
                asked.flags.push(word);
            } else if options.contains(&word.as_str()) {
                asked.numbers.push((word, words.next()?.parse().ok()?));
            } else {
                return None;
            }
        }
        Some(asked)
    }

    pub fn number(&self, option: &str, otherwise: usize) -> usize {
        self.numbers.iter().rev().find(|(name, _)| name == option).map_or(otherwise, |&(_, number)| number)
    }

    pub fn has(&self, flag: &str) -> bool {
        self.flags.iter().any(|name| name == flag)
    }
}
