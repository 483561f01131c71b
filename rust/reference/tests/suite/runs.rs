//! Running lists.

use crate::sample::Sample;
use crate::support::{varied_file, Random, ALL, OPEN};
use reference::{run, step, Ran};

const VUNPCKLPS: [u8; 4] = [0xC5, 0xE8, 0x14, 0xCB];
const VPSHUFD: [u8; 5] = [0xC5, 0xF9, 0x70, 0xCA, 0x1B];

fn ran(steps: u64, place: u64, status: u32) -> Ran {
    Ran {
        steps,
        place,
        status,
        reason: 0,
    }
}

/// Runs and checks the answer and the file against the given single steps.
fn check_run(code: &[u8], budget: u64, expected: Ran, steps: &[&[u8]]) {
    let mut file = varied_file();
    assert_eq!(run(code, &mut file, &OPEN, ALL, budget), expected);
    let mut stepped = varied_file();
    for code in steps {
        assert_eq!(step(code, &mut stepped, &OPEN, ALL, &[]).status, 0);
    }
    assert_eq!(file, stepped);
}

#[test]
fn empty_list() {
    check_run(&[], 0, ran(0, 0, 0), &[]);
    check_run(&[], 4_096, ran(0, 0, 0), &[]);
}

#[test]
fn budgets() {
    let code = [&VPSHUFD[..], &VUNPCKLPS, &VPSHUFD].concat();
    check_run(&code, 0, ran(0, 0, 0), &[]);
    check_run(&code, 1, ran(1, 5, 0), &[&VPSHUFD]);
    check_run(&code, 2, ran(2, 9, 0), &[&VPSHUFD, &VUNPCKLPS]);
    let all: [&[u8]; 3] = [&VPSHUFD, &VUNPCKLPS, &VPSHUFD];
    check_run(&code, 3, ran(3, 14, 0), &all);
    check_run(&code, u64::MAX, ran(3, 14, 0), &all);
}

#[test]
fn a_refusal_keeps_the_steps_before_it() {
    let memory_form = [0xC5, 0xF9, 0x70, 0x08, 0x1B];
    let vvvv = [0xC5, 0xE9, 0x70, 0xCA, 0x1B];
    let w_and_l = [0xC4, 0xE3, 0xE9, 0x06, 0xCB, 0x31];
    let cases: [(&[u8], u32, u32); 5] = [
        (&VPSHUFD[..4], 2, 0),
        (&[0x90], 3, 0),
        (&vvvv, 4, 4),
        (&w_and_l, 4, 2),
        (&memory_form, 6, 0),
    ];
    for (bad, status, reason) in cases {
        let code = [&VUNPCKLPS[..], bad].concat();
        let refused = |steps, place| Ran {
            reason,
            ..ran(steps, place, status)
        };
        check_run(&code, 2, refused(1, 4), &[&VUNPCKLPS]);
        check_run(&code, 1, ran(1, 4, 0), &[&VUNPCKLPS]);
        check_run(&code, 0, ran(0, 0, 0), &[]);
        check_run(bad, 1, refused(0, 0), &[]);
    }
}

#[test]
fn missing_features_stop_a_run() {
    let wide = [0xC5, 0xFD, 0x70, 0xCA, 0x1B];
    let code = [&VPSHUFD[..], &wide].concat();
    let mut file = varied_file();
    assert_eq!(run(&code, &mut file, &OPEN, 1, 9), ran(1, 5, 5));
    // Missing features come before the memory form's 6.
    let memory_form = [0xC5, 0xFD, 0x70, 0x08, 0x1B];
    assert_eq!(run(&memory_form, &mut file, &OPEN, 1, 9), ran(0, 0, 5));
}

#[test]
fn sizes_come_before_the_list_limit() {
    let long = VUNPCKLPS.repeat(4_097);
    for code in [&[][..], &VPSHUFD, &long] {
        for budget in [0, 1] {
            for size in [0, 2_047, 2_049] {
                let mut file = vec![1; size];
                assert_eq!(run(code, &mut file, &OPEN, ALL, budget), ran(0, 0, 1));
                assert_eq!(file, vec![1; size]);
            }
            let mut file = varied_file();
            assert_eq!(run(code, &mut file, &[0; 7], ALL, budget), ran(0, 0, 1));
            assert_eq!(run(code, &mut file, &[0; 9], ALL, budget), ran(0, 0, 1));
            for features in [2, 4, 9, 62, 64] {
                let refused = run(code, &mut file, &OPEN, features, budget);
                assert_eq!(refused, ran(0, 0, 1));
            }
            assert_eq!(file, varied_file());
        }
    }
}

#[test]
fn the_list_limit() {
    let full = VUNPCKLPS.repeat(4_096);
    // 4,096 bytes and a budget of 1,024 were the most before request 5.
    for (budget, steps) in [
        (1_023, 1_023),
        (1_024, 1_024),
        (1_025, 1_025),
        (4_095, 4_095),
        (4_096, 4_096),
        (4_097, 4_096),
        (u64::MAX, 4_096),
    ] {
        let all = vec![&VUNPCKLPS[..]; steps as usize];
        check_run(&full, budget, ran(steps, 4 * steps, 0), &all);
    }
    let over = [&full[..], &[0x90]].concat();
    for code in [&over[..], &VUNPCKLPS.repeat(4_097)] {
        for budget in [0, 1] {
            let mut file = varied_file();
            assert_eq!(run(code, &mut file, &OPEN, ALL, budget), ran(0, 0, 8));
            assert_eq!(file, varied_file());
        }
    }
    let all = vec![&VUNPCKLPS[..]; 4_095];
    check_run(&full[..16_383], 4_096, ran(4_095, 16_380, 2), &all);
}

/// A run of n, then one of m on the rest and on the file that it left, against a run of n + m.
fn check_parts(code: &[u8], n: u64, m: u64, random: &mut Random) {
    let masks = random.masks();
    let start = random.file();
    let mut whole = start.clone();
    let expected = run(code, &mut whole, &masks, ALL, n + m);
    let mut parts = start;
    let first = run(code, &mut parts, &masks, ALL, n);
    if first.status != 0 {
        return;
    }
    let second = run(&code[first.place as usize..], &mut parts, &masks, ALL, m);
    let [steps, place] = [first.steps + second.steps, first.place + second.place];
    let sum = Ran {
        steps,
        place,
        ..second
    };
    assert_eq!(sum, expected);
    assert!(parts == whole);
}

#[test]
fn a_run_in_two_parts_is_one_run() {
    let mut random = Random(5);
    for _ in 0..300 {
        let count = random.below(20);
        let samples = (0..count).map(|_| Sample::random(&mut random).encode());
        let code: Vec<u8> = samples.flatten().collect();
        let [n, m] = [random.below(10) as u64, random.below(10) as u64];
        check_parts(&code, n, m, &mut random);
    }
}

/// Budgets up to 4,096 each (request 5).
#[test]
fn long_runs_in_two_parts() {
    let mut random = Random(6);
    let full = VUNPCKLPS.repeat(4_096);
    for n in [0, 1_023, 1_024, 1_025, 4_095, 4_096] {
        for m in [0, 1_024, 4_095, 4_096] {
            check_parts(&full, n, m, &mut random);
        }
    }
}
