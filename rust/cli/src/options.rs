//! Options and operands of a command.

use std::ffi::{OsStr, OsString};

/// An option that a command knows.
#[derive(Clone, Copy)]
pub struct Known {
    name: &'static str,
    /// What its value is; nothing for an option without one.
    value: Option<&'static str>,
    /// Whether it may be given more than once.
    is_repeated: bool,
}

impl Known {
    pub const fn flag(name: &'static str) -> Known {
        Known {
            name,
            value: None,
            is_repeated: false,
        }
    }

    pub const fn with(name: &'static str, value: &'static str) -> Known {
        Known {
            name,
            value: Some(value),
            is_repeated: false,
        }
    }

    pub const fn repeated(name: &'static str, value: &'static str) -> Known {
        Known {
            name,
            value: Some(value),
            is_repeated: true,
        }
    }
}

// Those that several commands have.
pub const HEX: Known = Known::flag("--hex");
pub const FEATURES: Known = Known::with("--features", "a list or a number");
pub const MASKS: Known = Known::with("--masks", "a file of eight hex numbers");
pub const REGISTERS: Known = Known::with("--registers", "a file of 2,048 bytes");
pub const OUT: Known = Known::with("--out", "a file name");

/// The words behind a command's name.
pub struct Options<'a> {
    pub operands: Vec<&'a OsStr>,
    given: Vec<(&'static str, &'a OsStr)>,
}

impl<'a> Options<'a> {
    /// Tells options from operands. An error is one line that says what was expected.
    pub fn parse(words: &'a [OsString], known: &[Known]) -> Result<Options<'a>, String> {
        let mut options = Options {
            operands: Vec::new(),
            given: Vec::new(),
        };
        let mut rest = words.iter().map(OsString::as_os_str);
        while let Some(word) = rest.next() {
            if word == "--" {
                options.operands.extend(rest);
                break;
            }
            match option(word) {
                Some(text) => options.take(text, known, &mut rest)?,
                None => options.operands.push(word),
            }
        }
        Ok(options)
    }

    fn take(
        &mut self,
        text: &'a str,
        known: &[Known],
        rest: &mut impl Iterator<Item = &'a OsStr>,
    ) -> Result<(), String> {
        let (name, inside) = match text.split_once('=') {
            Some((name, value)) => (name, Some(OsStr::new(value))),
            None => (text, None),
        };
        let found = known.iter().find(|option| option.name == name);
        let found = found.ok_or_else(|| unknown(known, text))?;
        let value = match found.value {
            None if inside.is_some() => return Err(format!("expected {name} without a value")),
            None => OsStr::new(""),
            Some(what) => inside
                .or_else(|| rest.next())
                .ok_or_else(|| format!("expected {what} after {name}"))?,
        };
        if !found.is_repeated && self.has(found) {
            return Err(format!("expected {name} only once"));
        }
        self.given.push((found.name, value));
        Ok(())
    }

    pub fn has(&self, option: &Known) -> bool {
        self.value(option).is_some()
    }

    pub fn value(&self, option: &Known) -> Option<&'a OsStr> {
        self.values(option).first().copied()
    }

    /// Every value of an option that may be given more than once.
    pub fn values(&self, option: &Known) -> Vec<&'a OsStr> {
        let given = self.given.iter();
        let found = given.filter(|(name, _)| *name == option.name);
        found.map(|(_, value)| *value).collect()
    }

    /// A value that has to be a whole number.
    pub fn number(&self, option: &Known) -> Result<Option<u64>, String> {
        let Some(value) = self.value(option) else {
            return Ok(None);
        };
        let digits = value.to_str().unwrap_or("");
        match digits.parse() {
            // Rust's numbers may have a sign.
            Ok(number) if !digits.starts_with('+') => Ok(Some(number)),
            _ => {
                let what = format!("a number below 2^64 after {}", option.name);
                Err(expected(&what, &value.to_string_lossy()))
            }
        }
    }

    /// The one operand that there has to be.
    pub fn only(&self, what: &str) -> Result<&'a OsStr, String> {
        match self.operands[..] {
            [operand] => Ok(operand),
            [] => Err(format!("expected {what}")),
            [_, second, ..] => {
                let second = shortened(&second.to_string_lossy());
                Err(format!("expected {what}, and not '{second}' as well"))
            }
        }
    }
}

/// The text of a word that is an option. A dash alone is an operand: standard input.
fn option(word: &OsStr) -> Option<&str> {
    let text = word.to_str()?;
    (text.starts_with('-') && text != "-").then_some(text)
}

fn unknown(known: &[Known], given: &str) -> String {
    let names: Vec<_> = known.iter().map(|option| option.name).collect();
    match names[..] {
        [name] => expected(&format!("no option but {name}"), given),
        _ => expected(&format!("an option among {}", names.join(", ")), given),
    }
}

pub fn asks_for_help(words: &[OsString]) -> bool {
    let mut options = words.iter().take_while(|word| *word != "--");
    options.any(|word| word == "--help" || word == "-h")
}

/// An error that quotes what was given, on one line and not too long.
pub fn expected(what: &str, given: &str) -> String {
    format!("expected {what}, not '{}'", shortened(given))
}

/// The start of a text, without control characters.
pub fn shortened(text: &str) -> String {
    const LONGEST: usize = 40;
    let start = text.chars().take(LONGEST);
    let mut short: String = start.flat_map(char::escape_debug).collect();
    if text.chars().nth(LONGEST).is_some() {
        short += "..";
    }
    short
}
