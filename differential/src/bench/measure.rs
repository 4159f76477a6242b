//! Times and instructions of calls.

use std::process::Command;
use std::time::{Duration, Instant};

/// Many short rounds: some fall between what else the machine does.
const ROUNDS: usize = 300;
const ROUND: Duration = Duration::from_millis(2);

/// The seconds of each call, the least of the rounds; the calls take turns.
pub fn least(calls: &mut [Box<dyn FnMut()>]) -> Vec<f64> {
    let mut least = vec![f64::INFINITY; calls.len()];
    for _ in 0..ROUNDS {
        for (least, call) in least.iter_mut().zip(calls.iter_mut()) {
            *least = least.min(round(call));
        }
    }
    least
}

/// The seconds of one call, by as many as fill a round.
fn round(call: &mut dyn FnMut()) -> f64 {
    let started = Instant::now();
    call();
    let once = started.elapsed().max(Duration::from_nanos(20));
    let calls = (ROUND.as_nanos() / once.as_nanos()).max(1) as u32;
    let started = Instant::now();
    (0..calls).for_each(|_| call());
    started.elapsed().as_secs_f64() / f64::from(calls)
}

/// The instructions of one call, which this program makes by `counted` when it
/// is started with the words; nothing where valgrind is not at hand.
pub fn instructions(words: &[&str]) -> Option<f64> {
    let output = Command::new("valgrind")
        .args(["--tool=callgrind", "--callgrind-out-file=/dev/null"])
        .arg("--toggle-collect=measured")
        .arg(std::env::current_exe().ok()?)
        .args(words)
        .output()
        .ok()?;
    let text = String::from_utf8_lossy(&output.stderr).into_owned();
    let line = text.lines().find(|line| line.contains("Collected :"))?;
    line.rsplit(' ').next()?.parse().ok()
}

/// Makes the call that is counted, after one that makes what calls share: the
/// hash tables' keys, the addresses of the C library.
pub fn counted(call: &mut dyn FnMut()) {
    call();
    measured(call);
}

/// What callgrind counts.
#[no_mangle]
#[inline(never)]
fn measured(call: &mut dyn FnMut()) {
    call();
}

pub fn micros(seconds: f64) -> String {
    format!("{:.2} µs", seconds * 1e6)
}

pub fn ratio(counts: [Option<f64>; 2]) -> String {
    match counts {
        [Some(one), Some(other)] => format!("{:.2}", one / other),
        _ => "-".to_string(),
    }
}
