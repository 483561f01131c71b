//! What an input has to answer: at the base, and with the requests that have landed since.
//!
//! Request 1: bytes of the six new rows answered 3, and now do what [`lane_permutes`] says.
//! Features over 31 answered 1, and up to 63 no longer do. All other bytes are as before: no row of
//! the base needs feature bit 5. They are given to today's library with all features of the base, and
//! whether one is missing is decided here ([`needs`]). The stored inputs with such bytes and with
//! features of the base, which are most, hold the library to these answers.
//!
//! Request 3: a listing has the reason behind a 4 ([`request_3`]). It asked for a text of 27,672
//! bytes, too. Request 5 has taken that back, so that no answer shows it any more, and it is not
//! here.
//!
//! Request 5: a list may have 16,384 bytes, and a text of 64 bytes gets as many whole lines as fit.
//! The frozen listings have no place, and are taken from place 0.
//!
//! Request 6: a set of features that no processor has answers 1 ([`request_6`]). Those over 31 did at
//! the base, so that they answer the same again.
//!
//! Request 7: a set bit 2 of EVEX P, which answered 4, is a map that no row has, and answers 3
//! ([`request_7`]). The library is not asked about such bytes.
//!
//! Lists are gone through here, an instruction at a time, as document 01 says it: the library is
//! asked about single instructions, which no limit is for. At the base that gives the base's
//! answers, and with all requests today's, which a test sees on every stored input.

use crate::answer::Answer;
use crate::decoded::Decoded;
use crate::digest::Digest;
use crate::input::{Build, Decode, Input, Listing, Run, Step};
use crate::lane_permutes::{self, Instruction};
use crate::needs::needed_features;
use crate::request_3;
use crate::request_6;
use crate::request_7;
use crate::today;

const FILE_SIZE: usize = 2_048;
const MASK_COUNT: usize = 8;
const MAP_SIZE: usize = 2_048;
const MAP_ZERO: u16 = 2_048;

/// The features that the base has.
const BASE_FEATURES: u32 = 31;

/// Names of the mnemonics 1, 2, 3 and so on.
const NAMES: [&str; 10] = [
    "VPERMILPD",
    "VPERMB",
    "VUNPCKLPS",
    "VPSHUFD",
    "VPERM2F128",
    "VPERMILPS",
    "VUNPCKHPS",
    "VUNPCKLPD",
    "VUNPCKHPD",
    "VPSHUFB",
];

/// The requests that count: those up to this one, of those that change an answer.
#[derive(Debug, Clone, Copy, PartialEq, Eq, PartialOrd, Ord)]
pub enum Landed {
    Base,
    Request1,
    Request3,
    Request5,
    Request6,
    Request7,
}

/// What bytes at the start of some code are.
enum Found {
    /// One of request 1's rows.
    New(Instruction),
    /// Refused.
    Refused(u32),
    /// Bytes that request 1 says nothing of.
    Other,
}

impl Landed {
    /// In the order of their landings.
    pub const ALL: [Landed; 6] = [
        Landed::Base,
        Landed::Request1,
        Landed::Request3,
        Landed::Request5,
        Landed::Request6,
        Landed::TODAY,
    ];
    pub const TODAY: Landed = Landed::Request7;

    /// The answer to an input; none for maps that are applied or composed, which have no code.
    pub fn answer(self, input: &Input) -> Option<Answer> {
        match input {
            Input::Decode(input) => Some(self.decode(input)),
            Input::Step(input) => Some(self.step(input)),
            Input::Run(input) => Some(self.run(input)),
            Input::Build(input) => Some(self.build(input)),
            Input::Listing(input) => Some(self.listing(input)),
            Input::Apply(_) | Input::Compose(_) => None,
        }
    }

    fn feature_limit(self) -> u32 {
        match self {
            Landed::Base => 31,
            _ => 63,
        }
    }

    /// Whether features do not answer 1.
    fn takes(self, features: u32) -> bool {
        let refused = self >= Landed::Request6 && request_6::no_processor_has(features);
        features <= self.feature_limit() && !refused
    }

    /// Most bytes of a list.
    fn code_limit(self) -> usize {
        match self {
            Landed::Base | Landed::Request1 | Landed::Request3 => 4_096,
            Landed::Request5 | Landed::Request6 | Landed::Request7 => 16_384,
        }
    }

    /// Least bytes of a listing's text.
    fn text_least(self) -> usize {
        match self {
            Landed::Base | Landed::Request1 | Landed::Request3 => 25_624,
            Landed::Request5 | Landed::Request6 | Landed::Request7 => 64,
        }
    }

    fn find(self, code: &[u8], features: u32) -> Found {
        match (lane_permutes::decode(code, features), self) {
            (None, _) => Found::Other,
            (Some(_), Landed::Base) => Found::Refused(3),
            (Some(Ok(instruction)), _) => Found::New(instruction),
            (Some(Err(status)), _) => Found::Refused(status),
        }
    }

    fn decoded(self, code: &[u8], features: u32) -> Decoded {
        if !self.takes(features) {
            return Decoded::refused(1);
        }
        match self.find(code, features) {
            Found::New(instruction) => instruction.decoded,
            Found::Refused(status) => Decoded::refused(status),
            Found::Other => self.other(code, features),
        }
    }

    fn decode(self, input: &Decode) -> Answer {
        let decoded = self.decoded(&input.code, input.features);
        Answer {
            status: decoded.status,
            numbers: vec![decoded.length.into()],
            digest: Digest::of(&decoded.fields()),
        }
    }

    fn step(self, input: &Step) -> Answer {
        let ((status, length), digest) = input.file.call(|file| {
            let sizes = file.len() == FILE_SIZE && input.masks.len() == MASK_COUNT;
            if !sizes || !self.takes(input.features) {
                return (1, 0);
            }
            self.stepped(
                &input.code,
                file,
                &input.masks,
                input.features,
                &input.memory,
            )
        });
        Answer {
            status,
            numbers: vec![length.into()],
            digest,
        }
    }

    /// Status and length of one instruction, once answer 1 is out of the question.
    fn stepped(
        self,
        code: &[u8],
        file: &mut [u8],
        masks: &[u64],
        features: u32,
        memory: &[u8],
    ) -> (u32, u32) {
        match self.find(code, features) {
            Found::New(new) if memory.len() != new.decoded.memory as usize => (6, 0),
            Found::New(new) => {
                new.carry_out(file, masks, memory, 0);
                (0, new.decoded.length)
            }
            Found::Refused(status) => (status, 0),
            Found::Other => match self.other(code, features).status {
                0 => today::stepped(code, file, masks, BASE_FEATURES, memory),
                status => (status, 0),
            },
        }
    }

    fn run(self, input: &Run) -> Answer {
        let ((status, steps, place), digest) = input.file.call(|file| self.ran(input, file));
        Answer {
            status,
            numbers: vec![steps, place as u64],
            digest,
        }
    }

    /// Status, steps and place.
    fn ran(self, input: &Run, file: &mut [u8]) -> (u32, u64, usize) {
        let Run {
            code,
            masks,
            features,
            ..
        } = input;
        let sizes = file.len() == FILE_SIZE && masks.len() == MASK_COUNT;
        if !sizes || !self.takes(*features) {
            return (1, 0, 0);
        }
        if code.len() > self.code_limit() {
            return (8, 0, 0);
        }
        let (mut steps, mut place) = (0, 0);
        while place < code.len() && steps < input.budget {
            let (status, length) = self.stepped(&code[place..], file, masks, *features, &[]);
            if status != 0 {
                return (status, steps, place);
            }
            steps += 1;
            place += length as usize;
        }
        (0, steps, place)
    }

    fn build(self, input: &Build) -> Answer {
        let ((status, place), digest) = input.map.call(|map| self.built(input, map));
        Answer {
            status,
            numbers: vec![place as u64],
            digest,
        }
    }

    /// Status and place.
    fn built(self, input: &Build, map: &mut [u16]) -> (u32, usize) {
        let Build {
            code,
            masks,
            features,
            ..
        } = input;
        let sizes = map.len() == MAP_SIZE && masks.len() == MASK_COUNT;
        if !sizes || !self.takes(*features) {
            return (1, 0);
        }
        if code.len() > self.code_limit() {
            return (8, 0);
        }
        let mut entries: Vec<u16> = (0..MAP_ZERO).collect();
        let mut place = 0;
        while place < code.len() {
            let (status, length) = self.mapped(&code[place..], &mut entries, masks, *features);
            if status != 0 {
                return (status, place);
            }
            place += length as usize;
        }
        map.copy_from_slice(&entries);
        (0, place)
    }

    /// Moves the entries as one instruction moves bytes, and gives its status and length.
    fn mapped(self, code: &[u8], entries: &mut [u16], masks: &[u64], features: u32) -> (u32, u32) {
        match self.find(code, features) {
            Found::New(new) if new.has_no_map() => (7, 0),
            Found::New(new) => {
                new.carry_out(entries, masks, &[], MAP_ZERO);
                (0, new.decoded.length)
            }
            Found::Refused(status) => (status, 0),
            Found::Other => self.map_other(code, entries, masks, features),
        }
    }

    fn listing(self, input: &Listing) -> Answer {
        let ((status, written), digest) = input.text.call(|text| {
            if text.len() < self.text_least() {
                return (1, 0);
            }
            if input.code.len() > self.code_limit() {
                return (8, 0);
            }
            let lines = self.lines(&input.code);
            let piece = whole_lines(&lines, text.len());
            text[..piece.len()].copy_from_slice(piece.as_bytes());
            (0, piece.len())
        });
        Answer {
            status,
            numbers: vec![written as u64],
            digest,
        }
    }

    /// The whole text of a listing, which decodes with all features that there are.
    ///
    /// # Panics
    ///
    /// If there is a 4, and no field of that instruction is wrong.
    pub fn lines(self, code: &[u8]) -> String {
        let mut lines = "at\tlen\tname\tbits\tanswer\n".to_string();
        let mut place = 0;
        while place < code.len() {
            let decoded = self.decoded(&code[place..], self.feature_limit());
            let Decoded {
                status,
                length,
                bits,
                ..
            } = decoded;
            if status != 0 {
                let answer = self.answer_field(status, &code[place..]);
                return lines + &format!("{place}\t0\t-\t0\t{answer}\n");
            }
            let name = NAMES[decoded.mnemonic as usize - 1];
            lines += &format!("{place}\t{length}\t{name}\t{bits}\t0\n");
            place += length as usize;
        }
        lines
    }

    /// The end of a refused instruction's line.
    fn answer_field(self, status: u32, code: &[u8]) -> String {
        if status != 4 || self < Landed::Request3 {
            return status.to_string();
        }
        let reason = request_3::reason(code).expect("with 4 a field is wrong");
        format!("4:{reason}")
    }

    /// Decodes bytes that request 1 says nothing of, once answer 1 is out of the question. Features
    /// are looked at last, as in document 01.
    fn other(self, code: &[u8], features: u32) -> Decoded {
        if request_7::has_map_from_4_on(code) {
            let status = if self < Landed::Request7 { 4 } else { 3 };
            return Decoded::refused(status);
        }
        let decoded = today::decoded(code, BASE_FEATURES);
        if decoded.status == 0 && needed_features(&decoded) & !features != 0 {
            return Decoded::refused(5);
        }
        decoded
    }

    /// An instruction of the base: its own map, and the entries that this names.
    fn map_other(
        self,
        code: &[u8],
        entries: &mut [u16],
        masks: &[u64],
        features: u32,
    ) -> (u32, u32) {
        let decoded = self.other(code, features);
        if decoded.status != 0 {
            return (decoded.status, 0);
        }
        let mut own = [0; MAP_SIZE];
        let code = &code[..decoded.length as usize];
        let (status, _) = today::built(code, masks, BASE_FEATURES, &mut own);
        if status != 0 {
            return (status, 0);
        }
        let old = entries.to_vec();
        for (entry, from) in entries.iter_mut().zip(own) {
            *entry = old.get(usize::from(from)).copied().unwrap_or(MAP_ZERO);
        }
        (0, decoded.length)
    }
}

/// As many whole lines of a text as fit into so many bytes. At the base, all of them do.
pub fn whole_lines(text: &str, size: usize) -> &str {
    let fitting = &text[..size.min(text.len())];
    let end = fitting.rfind('\n').map_or(0, |newline| newline + 1);
    &text[..end]
}
