//! `tarhuspo audit`: the library against this machine's processor.

use crate::answer::{Answer, Failure};
use crate::options::{expected, Known, Options};
use crate::output::complain;
use ::audit::{audit_watched, engine, Limit, Progress, Report};
use std::ffi::OsString;
use std::io::{self, IsTerminal};
use std::time::Duration;

const SECONDS: Known = Known::with("--seconds", "a number of seconds");
const STEPS: Known = Known::with("--steps", "a number of instructions");
const CASE: Known = Known::with("--case", "the number of a case");
const SEED: Known = Known::with("--seed", "a number");

/// Between two updates of the progress line.
const PAUSE: Duration = Duration::from_millis(200);

pub fn run(words: &[OsString]) -> Result<Answer, Failure> {
    let options = Options::parse(words, &[SECONDS, STEPS, CASE, SEED])?;
    if let Some(operand) = options.operands.first() {
        return Err(expected("options alone", &operand.to_string_lossy()).into());
    }
    let seed = options.number(&SEED)?.unwrap_or(1);
    let asked = ::audit::Options {
        first_case: options.number(&CASE)?.unwrap_or(0),
        ..::audit::Options::new(seed, limit(&options)?)
    };
    let mut line = Line::new(asked.limit);
    let result = audit_watched(&mut engine::library(), asked, &mut |now| line.show(now));
    line.clear();
    closing(result)
}

fn limit(options: &Options) -> Result<Limit, String> {
    let [seconds, steps, case] = [&SECONDS, &STEPS, &CASE].map(|option| options.number(option));
    match (seconds?, steps?, case?) {
        (None, None, None) => Ok(Limit::Time(Duration::from_secs(10))),
        (None, None, Some(_)) => Ok(Limit::Steps(1)),
        (Some(0), None, None) => Err("expected a number above 0 after --seconds".to_string()),
        (None, Some(0), None) => Err("expected a number above 0 after --steps".to_string()),
        (Some(seconds), None, None) => Ok(Limit::Time(Duration::from_secs(seconds))),
        (None, Some(steps), None) => Ok(Limit::Steps(steps)),
        _ => Err("expected only one of --seconds, --steps and --case".to_string()),
    }
}

fn closing(result: Result<Report, ::audit::Failure>) -> Result<Answer, Failure> {
    match result {
        Ok(report) if report.steps() + report.refused_cases() == 0 => {
            Err("expected x86-64 Linux and a processor with AVX: nothing was compared".into())
        }
        Ok(report) => Ok(Answer::text(report.to_string())),
        Err(::audit::Failure::Difference(difference)) => {
            Ok(Answer::text(format!("{difference}\n")).refused_if(true))
        }
        Err(failure) => Err(failure.to_string().into()),
    }
}

/// The line that tells a person at a terminal how far the audit is.
struct Line {
    is_wanted: bool,
    limit: Limit,
    /// When it was last written.
    shown: Option<Duration>,
}

impl Line {
    fn new(limit: Limit) -> Line {
        Line {
            is_wanted: io::stderr().is_terminal(),
            limit,
            shown: None,
        }
    }

    fn show(&mut self, now: Progress) {
        let is_due = self.shown.is_none_or(|shown| now.elapsed >= shown + PAUSE);
        if !self.is_wanted || !is_due {
            return;
        }
        self.shown = Some(now.elapsed);
        let (count, seconds) = (now.instructions, now.elapsed.as_secs());
        let line = match self.limit {
            Limit::Steps(all) => format!("{count} of {all} instructions, {seconds} s"),
            Limit::Time(all) => {
                format!("{count} instructions, {seconds} of {} s", all.as_secs())
            }
        };
        complain(&format!("\raudit: {line}\x1b[K"));
    }

    /// Leaves an empty line for what follows.
    fn clear(&self) {
        if self.shown.is_some() {
            complain("\r\x1b[K");
        }
    }
}

#[cfg(test)]
mod tests {
    use super::{closing, Failure};
    use ::audit::engine::Function;
    use ::audit::{audit, Addressed, Answer, Capabilities, Limit, Options, Words};

    /// An engine that refuses everything.
    fn refusing() -> Function {
        Function {
            name: "refuses everything",
            address: |_, _, _, _| Addressed {
                status: 3,
                reason: 0,
                has_address: false,
                address: 0,
            },
            step: |_, _, _, _, _| Answer {
                status: 3,
                length: 0,
                reason: 0,
            },
        }
    }

    #[test]
    fn a_difference_is_told_with_all_that_repeats_it() {
        let capabilities = Capabilities::detect().expect("possible features");
        if capabilities.register_set().is_none() {
            println!("skipped: no AVX on this machine");
            return;
        }
        let result = audit(&mut refusing(), Options::new(9, Limit::Steps(5)));
        let Ok(answer) = closing(result) else {
            panic!("a difference is an answer");
        };
        let text = String::from_utf8(answer.text).expect("UTF-8");
        assert!(answer.is_refused, "{text}");
        let told = [
            "difference: engine refuses everything, seed 9, case 0\n",
            "\n  engine: status 3, reason 0, no address; expected: no address, for a register",
            "\n  engine: status 3; expected: status 0\n",
            "\ninstruction: ",
            "\nfeatures: ",
            "\nmemory, ",
            "\nrun as: ",
            "\nr15: ",
            "\nk7: ",
            "\nregister 31 before, byte 0 first: ",
            "\nrepeat with: tarhuspo audit --seed 9 --case 0\n",
        ];
        for line in told {
            assert!(text.contains(line), "no {line:?} in\n{text}");
        }
    }

    /// Otherwise a machine that can compare nothing would pass.
    #[test]
    fn nothing_compared_is_no_success() {
        let capabilities = Capabilities::detect().map(|found| found.without(u32::MAX));
        let options = Options {
            capabilities,
            ..Options::new(1, Limit::Steps(5))
        };
        let Err(Failure::Usage(expected)) = closing(audit(&mut refusing(), options)) else {
            panic!("nothing was compared");
        };
        assert!(expected.contains("nothing was compared"), "{expected}");
    }

    /// CPUID's bits for features that no processor has, as a hypervisor may report them.
    #[test]
    fn impossible_features_are_told_in_words() {
        const AVX: u32 = 1 << 28;
        for (set, leaf_1_ecx, leaf_7_ebx, leaf_7_ecx, reported) in [
            (9, AVX, 1 << 31, 0, "avx512vl without avx512f"),
            (19, AVX, 1 << 5, 1 << 1, "avx512_vbmi without avx512f"),
            (2, 0, 1 << 5, 0, "avx2 without avx"),
            (32, 0, 1 << 30, 0, "avx512bw without avx, avx512f"),
            (6, 0, 1 << 5 | 1 << 16, 0, "avx2, avx512f without avx"),
        ] {
            assert!(!tarhuspo::features::possible(set), "{reported}");
            let words = Words {
                leaf_1_ecx,
                leaf_7_ebx,
                leaf_7_ecx,
                xcr0: 0xE7,
                ..Words::default()
            };
            let options = Options {
                capabilities: Capabilities::detect_as(&words),
                ..Options::new(1, Limit::Steps(5))
            };
            let Err(Failure::Usage(told)) = closing(audit(&mut refusing(), options)) else {
                panic!("{reported}: nothing was compared");
            };
            let why = "no processor has such a set, and the library refuses it with status 1";
            let expected = format!("CPUID reports {reported}: {why}; nothing was compared");
            assert_eq!(told, expected);
        }
    }
}
