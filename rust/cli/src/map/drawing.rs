//! A byte map as a picture: a row for each register, a cell for each byte.
//!
//! It reads without colour: a box with a number is a run of bytes from that register, hatching is
//! zero, and what stays is blank.

use super::colours::COLOURS;
use crate::places::{Run, Source, REGISTERS, REGISTER_SIZE};
use std::fmt::Write;

// Sizes in pixels. Lanes of 16 bytes stand apart.
const CELL_WIDTH: usize = 14;
const CELL_HEIGHT: usize = 18;
const LANE: usize = 16;
const LANE_GAP: usize = 4;
const LEFT: usize = 56;
const TOP: usize = 62;
const WIDTH: usize = LEFT + REGISTER_SIZE * CELL_WIDTH + 3 * LANE_GAP + 12;
const LEGEND: usize = TOP + REGISTERS * CELL_HEIGHT + 14;
const KEY: usize = LEGEND + 34;
const KEY_STEP: usize = 55;
const KEYS_PER_LINE: usize = 16;
const KEY_LINE: usize = CELL_HEIGHT + 6;

const STYLE: &str = "\
text{fill:#000;pointer-events:none}.n,.e,.m{font:10px monospace}\
.t{font:bold 14px sans-serif}.s{font:12px sans-serif}.e{text-anchor:end}.m{text-anchor:middle}\
rect{stroke:#000;stroke-opacity:.2}.k{fill:#fff}.z{fill:url(#zero)}\
.o{fill:none;stroke-opacity:1;pointer-events:none}";

const ZERO_PATTERN: &str = "\
<pattern id=\"zero\" width=\"6\" height=\"6\" patternUnits=\"userSpaceOnUse\">\
<path d=\"M0 0h6v6h-6z\" fill=\"#fff\"/>\
<path d=\"M-1 1l2 -2M0 6l6 -6M5 7l2 -2\" stroke=\"#555\"/></pattern>";

/// The whole file. Equal maps give equal bytes.
pub fn svg(runs: &[Run]) -> String {
    let keys = keys(runs);
    let height = KEY + keys.len().div_ceil(KEYS_PER_LINE) * KEY_LINE + 6;
    let mut lines = vec![
        format!(
            "<svg xmlns=\"http://www.w3.org/2000/svg\" role=\"img\" width=\"{WIDTH}\" \
             height=\"{height}\" viewBox=\"0 0 {WIDTH} {height}\">"
        ),
        "<title>Byte map: where each register byte comes from</title>".to_string(),
        format!("<style>{STYLE}{}</style>", colour_classes()),
        format!("<defs>{ZERO_PATTERN}</defs>"),
        format!("<path d=\"M0 0h{WIDTH}v{height}h-{WIDTH}z\" fill=\"#fff\"/>"),
        text(LEFT, 22, "t", "Where each register byte comes from"),
        text(LEFT, 40, "s", &summary(runs)),
        text(LEFT - 6, TOP - 6, "e", "byte"),
    ];
    lines.extend((0..REGISTER_SIZE).step_by(4).map(column_heading));
    lines.extend((0..REGISTERS).map(row_heading));
    lines.extend((0..REGISTERS).map(|register| row(register, runs, cells)));
    // After all cells, so that none covers a part of a frame.
    lines.extend((0..REGISTERS).map(|register| row(register, runs, frames)));
    lines.extend(legend());
    lines.extend(keys);
    lines.push("</svg>\n".to_string());
    lines.join("\n")
}

fn colour_classes() -> String {
    let classes = COLOURS.iter().enumerate();
    classes
        .map(|(register, colour)| format!(".r{register}{{fill:{colour}}}"))
        .collect()
}

fn summary(runs: &[Run]) -> String {
    let (mut moved, mut zero, mut kept) = (0, 0, 0);
    for run in runs {
        let count = match run.source {
            Source::From(_) => &mut moved,
            Source::Zero => &mut zero,
            Source::Kept => &mut kept,
        };
        *count += run.length;
    }
    format!("{moved} bytes come from another place, {zero} become zero, {kept} are untouched")
}

fn text(x: usize, y: usize, class: &str, content: &str) -> String {
    format!("<text x=\"{x}\" y=\"{y}\" class=\"{class}\">{content}</text>")
}

fn rectangle(x: usize, width: usize, class: &str) -> String {
    format!("<rect x=\"{x}\" width=\"{width}\" height=\"{CELL_HEIGHT}\" class=\"{class}\"")
}

fn column(byte: usize) -> usize {
    LEFT + byte * CELL_WIDTH + byte / LANE * LANE_GAP
}

fn column_heading(byte: usize) -> String {
    let middle = column(byte) + CELL_WIDTH / 2;
    text(middle, TOP - 6, "m", &byte.to_string())
}

fn row_heading(register: usize) -> String {
    let base = TOP + register * CELL_HEIGHT + 13;
    text(LEFT - 6, base, "e", &format!("zmm{register}"))
}

/// What `draw` makes of the runs of one register.
fn row(register: usize, runs: &[Run], draw: fn(&Run) -> String) -> String {
    let top = TOP + register * CELL_HEIGHT;
    let own = runs
        .iter()
        .filter(|run| run.start / REGISTER_SIZE == register);
    let drawn: String = own.map(draw).collect();
    format!("<g transform=\"translate(0 {top})\">{drawn}\n</g>")
}

/// A cell for each byte of the run, with what becomes of it as a tooltip.
fn cells(run: &Run) -> String {
    let mut cells = String::new();
    for i in 0..run.length {
        let place = run.start + i;
        let (register, byte) = (place / REGISTER_SIZE, place % REGISTER_SIZE);
        let (class, origin) = match run.source {
            Source::Kept => ("k".to_string(), "untouched".to_string()),
            Source::Zero => ("z".to_string(), "zero".to_string()),
            Source::From(start) => {
                let (from, at) = (start / REGISTER_SIZE, start % REGISTER_SIZE + i);
                (format!("r{from}"), format!("from zmm{from} byte {at}"))
            }
        };
        let cell = rectangle(column(byte), CELL_WIDTH, &class);
        let title = format!("<title>zmm{register} byte {byte} {origin}</title>");
        // Writing to a string cannot fail.
        let _ = write!(cells, "\n{cell}>{title}</rect>");
    }
    cells
}

/// A box around each part of the run that is in one lane, with the source's register and first byte
/// if there is room. What stays has none.
fn frames(run: &Run) -> String {
    if run.source == Source::Kept {
        return String::new();
    }
    let (mut frames, mut start) = (String::new(), run.start);
    let end = run.start + run.length;
    while start < end {
        let next = end.min((start / LANE + 1) * LANE);
        frames += &frame(&run.part(start, next));
        start = next;
    }
    frames
}

fn frame(run: &Run) -> String {
    let left = column(run.start % REGISTER_SIZE);
    let frame = rectangle(left, run.length * CELL_WIDTH, "o");
    format!("\n{frame}/>{}", number(run, left))
}

fn number(run: &Run, left: usize) -> String {
    let Source::From(start) = run.source else {
        return String::new();
    };
    let (register, byte) = (start / REGISTER_SIZE, start % REGISTER_SIZE);
    match run.length {
        1 | 2 => text(left + 1, 13, "n", &register.to_string()),
        _ => text(left + 3, 13, "n", &format!("{register}:{byte}")),
    }
}

/// What each kind of cells means.
fn legend() -> Vec<String> {
    let examples = [
        (0, 3, "r2", "2:12", "from zmm2, starting at its byte 12"),
        (280, 1, "r2", "2", "from zmm2: no room for the byte"),
        (530, 3, "z", "", "zero"),
        (620, 3, "k", "", "untouched: stays as it is"),
    ];
    let mut lines = vec![format!("<g transform=\"translate({LEFT} {LEGEND})\">")];
    for (x, cells, class, number, meaning) in examples {
        let width = cells * CELL_WIDTH;
        lines.push(rectangle(x, width, class) + "/>");
        if class != "k" {
            lines.push(rectangle(x, width, "o") + "/>");
        }
        lines.push(text(x + 3, 13, "n", number));
        lines.push(text(x + width + 8, 13, "s", meaning));
    }
    lines.push("</g>".to_string());
    lines
}

/// The colours of the registers that bytes come from.
fn keys(runs: &[Run]) -> Vec<String> {
    let is_used = |register: &usize| {
        let mut sources = runs.iter().map(|run| run.source);
        sources.any(|source| matches!(source, Source::From(p) if p / REGISTER_SIZE == *register))
    };
    let mut lines = Vec::new();
    for (i, register) in (0..REGISTERS).filter(is_used).enumerate() {
        let x = LEFT + i % KEYS_PER_LINE * KEY_STEP;
        let y = KEY + i / KEYS_PER_LINE * KEY_LINE;
        let class = format!("r{register}");
        let key = rectangle(x, KEY_STEP - 8, &class);
        let frame = rectangle(x, KEY_STEP - 8, "o");
        let name = text(x + 4, 13, "n", &format!("zmm{register}"));
        lines.push(format!(
            "<g transform=\"translate(0 {y})\">{key}/>{frame}/>{name}</g>"
        ));
    }
    lines
}
