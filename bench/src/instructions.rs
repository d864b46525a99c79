//! Instructions of each case, counted by valgrind's callgrind: exact where times are noisy.

use crate::calls::Card;
use crate::speed;
use std::fs;
use std::process::{Command, Stdio};

const TIMES: u32 = 20;

/// Callgrind writes a file each time that this is left.
#[no_mangle]
#[inline(never)]
extern "C" fn bench_case_counted() {
    std::hint::black_box(());
}

/// What runs under callgrind: each case some times on one card.
pub fn count(card: &Card) {
    for work in &mut speed::works() {
        work.repeat(card, TIMES);
        bench_case_counted();
    }
}

/// The calls of the library, by what stands behind `tirlwheel_`; the Rust card's begin with `rust_`.
const CALLS: [&str; 18] = [
    "frame",
    "sealed_frame",
    "field_reset",
    "card_frame",
    "card_sealed_frame",
    "card_reset",
    "open",
    "kept_frame",
    "kept_sealed_frame",
    "kept_reset",
    "play",
    "play_ev1",
    "lookup",
    "mend",
    "write_directory",
    "read_directory",
    "write_access",
    "read_access",
];

/// Instructions for each case, on the library and on the Rust card.
pub fn of_both() -> Vec<(f64, f64)> {
    let of_library = counted("library", CALLS.map(|call| format!("tirlwheel_{call}")));
    let of_rust = counted("rust", CALLS.map(|call| format!("*::rust_{call}*")));
    of_library.into_iter().zip(of_rust).collect()
}

/// Runs this program again under callgrind, which counts inside the named functions alone.
fn counted<const N: usize>(card: &str, functions: [String; N]) -> Vec<f64> {
    let folder = std::env::temp_dir().join(format!("tirlwheel-count-{card}-{}", std::process::id()));
    fs::create_dir_all(&folder).expect("a temporary folder");
    let status = Command::new("valgrind")
        .args(["--tool=callgrind", "--callgrind-out-file=out", "--dump-after=bench_case_counted"])
        .args(functions.iter().map(|function| format!("--toggle-collect={function}")))
        .arg(std::env::current_exe().expect("this program's path"))
        .args(["count", card])
        .current_dir(&folder)
        .stderr(Stdio::null())
        .status();
    assert!(status.expect("valgrind starts").success(), "valgrind failed");
    let counts = (1..=speed::works().len()).map(|dump| total(&folder.join(format!("out.{dump}"))) / f64::from(TIMES)).collect();
    fs::remove_dir_all(&folder).expect("the temporary folder goes");
    counts
}

fn total(dump: &std::path::Path) -> f64 {
    let text = fs::read_to_string(dump).unwrap_or_else(|error| panic!("{}: {error}", dump.display()));
    let totals = text.lines().find_map(|line| line.strip_prefix("totals: ").or(line.strip_prefix("summary: ")));
    totals.expect("a total").trim().parse().expect("a number")
}
