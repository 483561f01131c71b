//! `tarhuspo audit`.

use crate::tools::{assert_bad_usage, at_terminal, printed};
use audit::Capabilities;

/// Whether this machine can compare anything. If not, one line says so.
fn has_avx() -> bool {
    let has = Capabilities::detect()
        .expect("possible features")
        .register_set()
        .is_some();
    if !has {
        println!("skipped: no AVX on this machine");
    }
    has
}

#[test]
fn report_states_sizes_with_their_units() {
    if !has_avx() {
        return;
    }
    let report = printed(&["audit", "--steps", "2000", "--seed", "5"]);
    let lines = [
        "engine: tarhuspo, seed 5\n",
        "\nprocessor: ",
        "\nforms skipped: ",
        "\nEVEX maps 4 to 7 are not compared: none of these instructions is there, and newer processors \
         may have\n  others\n",
        "\nsteps compared: 1500 carried out, ",
        " refused with #UD\n",
        "\ncompared after each: 2048 register bytes (32 registers of 64 bytes), ",
        " 8 opmasks of 64 bits,\n",
        " status, reason, length in bytes, the memory operand, the guard bytes ",
        "\nmemory operands that the processor read at the engine's address: ",
        "\nno difference\n",
    ];
    for line in lines {
        assert_eq!(report.matches(line).count(), 1, "{line:?} in\n{report}");
    }
    // Some processors carry out a few that are refused.
    let number = |before: &str| {
        let (_, rest) = report.split_once(before)?;
        rest.split(' ').next()?.parse::<u32>().ok()
    };
    let undefined = number("carried out, ").expect("a number");
    let ignored = number("\n  and ").unwrap_or(0);
    assert_eq!(undefined + ignored, 500, "{report}");
}

/// As the report does.
#[test]
fn help_says_what_is_left_out() {
    let help = printed(&["help", "audit"]);
    let words: Vec<_> = help.split_whitespace().collect();
    let left_out = "EVEX maps 4 to 7 are left out, where newer processors may have instructions, \
                    and the EVEX fixed bits where APX is on";
    assert!(words.join(" ").contains(left_out), "{help}");
}

/// Each instruction has been compared, or is named among those that this machine lacks.
#[test]
fn report_has_every_instruction() {
    if !has_avx() {
        return;
    }
    let report = printed(&["audit", "--steps", "2000"]);
    for name in (1..).map_while(tarhuspo::mnemonic_name) {
        let is_compared = report.contains(&format!("\n  {name} "));
        let skipped = report
            .lines()
            .find(|line| line.starts_with("forms skipped: "));
        let is_skipped = skipped.is_some_and(|line| line.contains(name));
        assert!(is_compared || is_skipped, "{name} in\n{report}");
    }
}

#[test]
fn seconds_limit_the_audit() {
    if !has_avx() {
        return;
    }
    let report = printed(&["audit", "--seconds", "1"]);
    let mut times = report
        .lines()
        .filter_map(|line| line.strip_prefix("time: "));
    let seconds = times.next().and_then(|time| time.split(' ').next());
    let seconds: f64 = seconds.and_then(|s| s.parse().ok()).expect("a time");
    assert!((1.0..5.0).contains(&seconds), "{report}");
    assert!(report.starts_with("engine: tarhuspo, seed 1\n"), "{report}");
}

#[test]
fn one_case_can_be_repeated() {
    if !has_avx() {
        return;
    }
    let last = u64::MAX.to_string();
    for (case, compared) in [
        ("0", "1 carried out, 0"),
        ("3", "0 carried out, 1"),
        (&last, "0 "),
    ] {
        let report = printed(&["audit", "--case", case, "--seed", "7"]);
        let line = format!("\nsteps compared: {compared}");
        assert!(report.contains(&line), "{report}");
    }
}

/// A person sees how far it is, and afterwards the report alone.
#[test]
fn progress_is_shown_at_a_terminal() {
    if !has_avx() {
        return;
    }
    let Some((status, out)) = at_terminal("audit --seconds 1") else {
        return;
    };
    assert_eq!(status, Some(0), "{out}");
    let lines = out.matches("\raudit: ").count();
    assert!((2..=6).contains(&lines), "{out:?}");
    assert!(out.contains(" instructions, 0 of 1 s\x1b[K"), "{out:?}");
    let (_, report) = out.rsplit_once("\r\x1b[K").expect("the line is cleared");
    assert!(report.starts_with("engine: tarhuspo"), "{out:?}");
    let (_, out) = at_terminal("audit --steps 500").expect("as before");
    assert!(
        out.contains("\raudit: 1 of 500 instructions, 0 s\x1b[K"),
        "{out:?}"
    );
}

#[test]
fn bad_usage_is_one_line() {
    let options = "--seconds, --steps, --case, --seed";
    let message = format!("expected an option among {options}, not '--what'");
    assert_bad_usage(&["audit", "--what"], &message);
    assert_bad_usage(&["audit", "x"], "expected options alone, not 'x'");
    assert_bad_usage(&["audit", "--seed"], "expected a number after --seed");
    for given in ["x", "-1", "+1", "18446744073709551616"] {
        let message = format!("expected a number below 2^64 after --seed, not '{given}'");
        assert_bad_usage(&["audit", "--seed", given], &message);
    }
    let twice = "expected --seed only once";
    assert_bad_usage(&["audit", "--seed", "1", "--seed", "2"], twice);
    for option in ["--seconds", "--steps"] {
        let message = format!("expected a number above 0 after {option}");
        assert_bad_usage(&["audit", option, "0"], &message);
    }
    let several = "expected only one of --seconds, --steps and --case";
    assert_bad_usage(&["audit", "--seconds", "1", "--steps", "1"], several);
    assert_bad_usage(&["audit", "--case", "1", "--steps", "1"], several);
}
