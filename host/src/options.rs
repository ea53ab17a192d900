//! The words after a program's name.

pub struct Options {
    words: Vec<String>,
}

impl Options {
    pub fn from_args() -> Options {
        Options { words: std::env::args().skip(1).collect() }
    }

    /// Takes out `name` and the words after it, if it is there.
    fn take(&mut self, name: &str, after: usize) -> Option<Vec<String>> {
        let at = self.words.iter().position(|word| word == name)?;
        let end = at + 1 + after;
        if end > self.words.len() {
            refuse(&format!("{name} wants {after} more"));
        }
        Some(self.words.drain(at..end).skip(1).collect())
    }

    pub fn word(&mut self, name: &str) -> bool {
        self.take(name, 0).is_some()
    }

    pub fn name(&mut self, name: &str) -> Option<String> {
        self.take(name, 1).map(|words| words[0].clone())
    }

    pub fn number(&mut self, name: &str, otherwise: u64) -> u64 {
        match self.name(name) {
            None => otherwise,
            Some(word) => word.parse().unwrap_or_else(|_| refuse(&format!("{name} wants a number"))),
        }
    }

    pub fn pair(&mut self, name: &str) -> Option<(String, String)> {
        self.take(name, 2).map(|words| (words[0].clone(), words[1].clone()))
    }

    /// What has not been taken out.
    pub fn rest(&self) -> &[String] {
        &self.words
    }

    /// Ends the program if a word is left that nobody asked for.
    pub fn finish(&self) {
        if let Some(word) = self.words.first() {
            refuse(&format!("not understood: {word}"));
        }
    }
}

fn refuse(what: &str) -> ! {
    eprintln!("{what}");
    std::process::exit(2)
}
