//! Code, masks, registers and maps, out of files, standard input or the arguments themselves.

use crate::hex::{self, Odd};
use crate::options::{expected, shortened, Options, HEX, MASKS};
use crate::output::complain;
use std::ffi::OsStr;
use std::fs::File;
use std::io::{self, Read};
use std::mem;
use tarhuspo::limits::{CODE_LIMIT, FILE_SIZE, MAP_SIZE, MASK_COUNT};

/// What marks an argument that holds hex text itself.
const INLINE: &str = "hex:";
/// Most bytes of a file of hex text: plenty for any list and its comments, with 64 for each byte of
/// the longest.
const TEXT_LIMIT: usize = 1 << 20;

/// Reads inputs, standard input at most once.
pub struct Inputs {
    /// Files of code are hex text.
    is_hex: bool,
    is_stdin_taken: bool,
}

impl Inputs {
    pub fn new(options: &Options) -> Inputs {
        Inputs {
            is_hex: options.has(&HEX),
            is_stdin_taken: false,
        }
    }

    /// A list of instructions. Of one that is too long, as much is read as the library needs to
    /// refuse it.
    pub fn code(&mut self, word: &OsStr) -> Result<Vec<u8>, String> {
        if !self.is_hex && inline(word).is_none() {
            return self.read(word, CODE_LIMIT).map_err(|e| hinting(e, word));
        }
        let text = self.text(word).map_err(|e| hinting(e, word))?;
        hex::bytes(&text).map_err(|odd| odd_group("pairs of hex digits", &odd, word))
    }

    /// The eight opmasks, k0 first: all 0 if nothing is said.
    pub fn masks(&mut self, options: &Options) -> Result<[u64; MASK_COUNT], String> {
        let Some(word) = options.value(&MASKS) else {
            return Ok([0; MASK_COUNT]);
        };
        let text = self.text(word)?;
        let numbers =
            hex::numbers(&text).map_err(|odd| odd_group("hex numbers below 2^64", &odd, word))?;
        let count = numbers.len();
        numbers.try_into().map_err(|_| {
            let name = name(word);
            format!("expected {MASK_COUNT} hex numbers in {name}, not {count}")
        })
    }

    /// The register file.
    pub fn registers(&mut self, word: &OsStr) -> Result<Vec<u8>, String> {
        self.exactly(FILE_SIZE, "2,048 bytes of registers", word)
    }

    /// A byte map.
    pub fn map(&mut self, word: &OsStr) -> Result<Vec<u16>, String> {
        let what = "a map of 4,096 bytes (2,048 entries of 16 bits)";
        let bytes = self.exactly(2 * MAP_SIZE, what, word)?;
        let entries = bytes.chunks_exact(2);
        Ok(entries
            .map(|entry| u16::from_le_bytes([entry[0], entry[1]]))
            .collect())
    }

    fn exactly(&mut self, size: usize, what: &str, word: &OsStr) -> Result<Vec<u8>, String> {
        let bytes = self.read(word, size)?;
        let found = match bytes.len() {
            found if found == size => return Ok(bytes),
            found if found > size => "more".to_string(),
            found => found.to_string(),
        };
        Err(format!("expected {what} in {}, not {found}", name(word)))
    }

    /// Hex text, out of the argument or the file that it names.
    fn text(&mut self, word: &OsStr) -> Result<String, String> {
        if let Some(text) = inline(word) {
            return Ok(text.to_string());
        }
        let bytes = self.read(word, TEXT_LIMIT)?;
        if bytes.len() > TEXT_LIMIT {
            return Err(format!("expected at most 1 MiB of text in {}", name(word)));
        }
        String::from_utf8(bytes).map_err(|_| format!("expected hex text in {}", name(word)))
    }

    /// At most `most` bytes, and one more if there are more: what is behind is left unread.
    fn read(&mut self, word: &OsStr, most: usize) -> Result<Vec<u8>, String> {
        let limit = most as u64 + 1;
        let mut bytes = Vec::new();
        let done = if word != "-" {
            File::open(word).and_then(|file| file.take(limit).read_to_end(&mut bytes))
        } else if mem::replace(&mut self.is_stdin_taken, true) {
            return Err("expected standard input (-) for one input only".to_string());
        } else {
            io::stdin().lock().take(limit).read_to_end(&mut bytes)
        };
        match done {
            Ok(_) => Ok(bytes),
            Err(e) => Err(format!("expected a readable file, not {}: {e}", name(word))),
        }
    }
}

/// Says so on standard error if an instruction goes by an opmask and none were given.
pub fn note_masks<'a>(
    options: &Options,
    mut codes: impl Iterator<Item = &'a Vec<u8>>,
    features: u32,
) {
    if !options.has(&MASKS) && codes.any(|code| uses_masks(code, features)) {
        complain("tarhuspo: note: the opmasks are taken as zero (see --masks)\n");
    }
}

fn uses_masks(code: &[u8], features: u32) -> bool {
    let mut rest = code;
    loop {
        let decoded = tarhuspo::decode(rest, features);
        if decoded.status != 0 || decoded.mask != 0 {
            return decoded.status == 0;
        }
        rest = &rest[decoded.length as usize..];
    }
}

/// Says so on standard error if what was read as bytes is hex text.
pub fn note_hex(options: &Options, word: &OsStr, code: &[u8]) {
    let is_read_as_bytes = !options.has(&HEX) && inline(word).is_none();
    let text = std::str::from_utf8(code).unwrap_or("");
    if is_read_as_bytes && hex::bytes(text).is_ok_and(|bytes| !bytes.is_empty()) {
        complain("tarhuspo: note: this looks like hex text, which --hex reads\n");
    }
}

fn inline(word: &OsStr) -> Option<&str> {
    word.to_str()?.strip_prefix(INLINE)
}

/// Says what to write, if a file's name looks like bytes that somebody has pasted.
fn hinting(message: String, word: &OsStr) -> String {
    let text = word.to_string_lossy();
    match hex::bytes(&text) {
        Ok(bytes) if !bytes.is_empty() => {
            format!("{message} (bytes are written {INLINE}{})", shortened(&text))
        }
        _ => message,
    }
}

/// The bytes of one instruction, which stand in the operands of a command without files. Where
/// there are none, the example says what they look like.
pub fn instruction(command: &str, example: &str, options: &Options) -> Result<Vec<u8>, String> {
    if options.operands.is_empty() {
        return Err(format!(
            "expected hex bytes after '{command}', as in: {command} {example}"
        ));
    }
    let mut code = Vec::new();
    for word in &options.operands {
        code.extend(bytes(word)?);
    }
    Ok(code)
}

fn bytes(word: &OsStr) -> Result<Vec<u8>, String> {
    let text = word.to_string_lossy();
    let found = hex::bytes(text.strip_prefix(INLINE).unwrap_or(&text));
    found.map_err(|odd| expected("pairs of hex digits", odd.group))
}

fn odd_group(what: &str, odd: &Odd, word: &OsStr) -> String {
    if inline(word).is_some() {
        return expected(what, odd.group);
    }
    let what = format!("{what} in line {} of {}", odd.line, name(word));
    expected(&what, odd.group)
}

/// What an input is called in messages.
pub fn name(word: &OsStr) -> String {
    if word == "-" {
        return "standard input".to_string();
    }
    if let Some(text) = inline(word) {
        return format!("'{INLINE}{}'", shortened(text));
    }
    format!("'{}'", word.to_string_lossy().escape_debug())
}
