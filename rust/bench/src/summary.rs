//! The step table in few lines.

use crate::operand::Operand;
use crate::timing::median;

/// What a line of the step table is about, and the library's time / the reference's.
pub struct Line {
    pub bits: usize,
    pub operand: Operand,
    pub ratio: f64,
}

/// Prints the range of the ratios for each width and operand, and for 512 bits with any operand.
pub fn print_summary(lines: &[Line]) {
    println!("\nlibrary/reference of these lines, by width and operand");
    println!(
        "{:>5}  {:10}{:>6}{:>9}{:>9}{:>10}",
        "bits", "operand", "lines", "least", "median", "greatest"
    );
    for bits in [128, 256, 512] {
        for operand in Operand::ALL {
            let ratios = ratios(lines, |line| line.bits == bits && line.operand == operand);
            print_range(bits, operand.name(), ratios);
        }
    }
    print_range(512, "all", ratios(lines, |line| line.bits == 512));
}

fn ratios(lines: &[Line], is_wanted: impl Fn(&Line) -> bool) -> Vec<f64> {
    let wanted = lines.iter().filter(|line| is_wanted(line));
    wanted.map(|line| line.ratio).collect()
}

fn print_range(bits: usize, operand: &str, ratios: Vec<f64>) {
    let count = ratios.len();
    let least = ratios.iter().copied().fold(f64::INFINITY, f64::min);
    let greatest = ratios.iter().copied().fold(0.0, f64::max);
    let median = median(ratios);
    println!("{bits:>5}  {operand:10}{count:>6}{least:>9.2}{median:>9.2}{greatest:>10.2}");
}
