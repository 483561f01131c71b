//! Inputs as text. Code, opmasks and memory are shown whole, and of larger buffers the size: the
//! number of the record stands for the rest.

use crate::input::Input;
use std::fmt;

impl fmt::Display for Input {
    fn fmt(&self, f: &mut fmt::Formatter) -> fmt::Result {
        let lines = match self {
            Input::Decode(i) => vec![features(i.features), bytes("code", &i.code)],
            Input::Step(i) => vec![
                features(i.features),
                bytes("code", &i.code),
                bytes("memory", &i.memory),
                masks(&i.masks),
                size("register file", i.file.size),
            ],
            Input::Run(i) => vec![
                features(i.features),
                format!("budget: {}", i.budget),
                bytes("code", &i.code),
                masks(&i.masks),
                size("register file", i.file.size),
            ],
            Input::Build(i) => vec![
                features(i.features),
                bytes("code", &i.code),
                masks(&i.masks),
                size("map", i.map.size),
            ],
            Input::Apply(i) => vec![entries("map", &i.map), size("register file", i.file.size)],
            Input::Compose(i) => vec![
                entries("first map", &i.first),
                entries("second map", &i.second),
                size("output", i.out.size),
            ],
            Input::Listing(i) => vec![bytes("code", &i.code), size("text", i.text.size)],
        };
        f.write_str(&lines.join("\n"))
    }
}

fn features(features: u32) -> String {
    format!("features: {features}")
}

fn bytes(name: &str, bytes: &[u8]) -> String {
    let digits: String = bytes.iter().map(|byte| format!(" {byte:02X}")).collect();
    format!("{name}, {} bytes:{digits}", bytes.len())
}

fn masks(masks: &[u64]) -> String {
    let digits: String = masks.iter().map(|mask| format!(" {mask:016X}")).collect();
    format!("opmasks, {}:{digits}", masks.len())
}

/// The largest entry decides whether a map is refused.
fn entries(name: &str, entries: &[u16]) -> String {
    let largest = entries.iter().max().map_or(0, |&entry| entry);
    format!("{name}: {} entries, the largest {largest}", entries.len())
}

fn size(name: &str, size: usize) -> String {
    format!("{name}: {size} elements")
}
