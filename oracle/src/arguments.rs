//! The words of a command. What is wrong with them is said on one line, and the exit status is then 2.
use std::fmt::Display;
use std::str::FromStr;

/// Says on standard error what is wrong, and ends.
pub fn stop(message: impl Display) -> ! {
    eprintln!("{message}");
    std::process::exit(2)
}

/// The words that follow a command, and how it is used.
pub struct Words {
    usage: &'static str,
    words: Box<dyn Iterator<Item = String>>,
}

impl Words {
    pub fn of(usage: &'static str) -> Self {
        let words = std::env::args_os().skip(1).map(|word| word.to_string_lossy().into_owned());
        Self { usage, words: Box::new(words) }
    }

    pub fn wrong(&self, what: impl Display) -> ! {
        stop(format!("{what}; usage: {}", self.usage))
    }

    pub fn word(&mut self) -> Option<String> {
        self.words.next()
    }

    /// The next word, which must be there.
    pub fn needed(&mut self, what: &str) -> String {
        self.word().unwrap_or_else(|| self.wrong(format!("{what} is missing")))
    }

    /// The next word as a number.
    pub fn number<N: FromStr>(&mut self, what: &str) -> N {
        let word = self.needed(what);
        self.parsed(what, &word)
    }

    /// The next word as a number, if there is one.
    pub fn number_or<N: FromStr>(&mut self, what: &str, default: N) -> N {
        match self.word() {
            Some(word) => self.parsed(what, &word),
            None => default,
        }
    }

    fn parsed<N: FromStr>(&self, what: &str, word: &str) -> N {
        word.parse().unwrap_or_else(|_| self.wrong(format!("{what} is a number, not {word}")))
    }

    /// There is no further word.
    pub fn end(mut self) {
        if let Some(word) = self.word() {
            self.wrong(format!("{word} is one word too many"));
        }
    }
}
