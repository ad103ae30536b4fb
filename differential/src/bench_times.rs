//! Times of calls that take turns, and tables of them.

use std::hint::black_box;
use std::time::{Duration, Instant};

/// Turns before those that count: memory is taken and caches are filled in them.
const WARM_UP: Duration = Duration::from_millis(50);
const FEWEST_TURNS: usize = 40;
/// The fewest where a call may take half a second.
const FEW_TURNS: usize = 5;
const MOST_TURNS: usize = 2_000;
/// After this time there are no more turns than the fewest.
const ENOUGH: Duration = Duration::from_millis(800);

/// A call that tells its time in nanoseconds.
pub type Call<'a> = &'a mut dyn FnMut() -> f64;

/// The time of a call; what it returns is dropped afterwards.
pub fn timed<T>(call: impl FnOnce() -> T) -> f64 {
    let start = Instant::now();
    let returned = black_box(call());
    let time = start.elapsed();
    drop(returned);
    time.as_nanos() as f64
}

unsafe extern "C" {
    /// Seconds and nanoseconds of a clock of the system.
    fn clock_gettime(clock: i32, time: *mut [i64; 2]) -> i32;
}

/// The processor's time of this thread, in nanoseconds.
fn processor_time() -> f64 {
    const OF_THREAD: i32 = 3;
    let mut time = [0; 2];
    assert_eq!(unsafe { clock_gettime(OF_THREAD, &mut time) }, 0);
    time[0] as f64 * 1e9 + time[1] as f64
}

/// The time that the processor spends on a call: what runs beside it does not count.
pub fn processor_timed<T>(call: impl FnOnce() -> T) -> f64 {
    let start = processor_time();
    let returned = black_box(call());
    let time = processor_time() - start;
    drop(returned);
    time
}

/// Makes all the calls in each turn, and gives the times of each call, turn by turn.
pub fn in_turns<const N: usize>(calls: [Call; N]) -> [Vec<f64>; N] {
    in_turns_at_least(FEWEST_TURNS, calls)
}

/// The same for calls that may take long.
pub fn in_few_turns<const N: usize>(calls: [Call; N]) -> [Vec<f64>; N] {
    in_turns_at_least(FEW_TURNS, calls)
}

fn in_turns_at_least<const N: usize>(fewest: usize, mut calls: [Call; N]) -> [Vec<f64>; N] {
    let mut times = [const { Vec::new() }; N];
    let start = Instant::now();
    while start.elapsed() < WARM_UP {
        for call in &mut calls {
            call();
        }
    }
    let start = Instant::now();
    for turn in 0..MOST_TURNS {
        if turn >= fewest && start.elapsed() > ENOUGH {
            break;
        }
        for (call, list) in calls.iter_mut().zip(&mut times) {
            list.push(call());
        }
    }
    times
}

pub fn median(times: &[f64]) -> f64 {
    let mut sorted = times.to_vec();
    sorted.sort_by(f64::total_cmp);
    sorted[sorted.len() / 2]
}

/// The median time of a call that takes no turns with another.
pub fn alone(mut call: impl FnMut() -> f64) -> f64 {
    let [times] = in_turns([&mut call]);
    median(&times)
}

/// A heading, what is said below it, and the first two lines of a table.
pub fn table(title: &str, note: &str, columns: &[&str]) {
    println!("\n## {title}\n\n{note}\n");
    println!("| {} |", columns.join(" | "));
    println!("|{}", "---|".repeat(columns.len()));
}

pub fn line(cells: &[String]) {
    println!("| {} |", cells.join(" | "));
}

/// A count with a comma between thousands.
pub fn shown(count: usize) -> String {
    match count {
        0..1_000 => count.to_string(),
        _ => format!("{},{:03}", shown(count / 1_000), count % 1_000),
    }
}

/// The part of a time that falls to each of so many, to a tenth.
pub fn each(time: f64, count: usize) -> String {
    let tenths = (time / count as f64 * 10.0).round() as usize;
    format!("{}.{}", shown(tenths / 10), tenths % 10)
}

/// How many times the library is faster.
pub fn ratio(of_crate: f64, of_library: f64) -> String {
    format!("{:.2}", of_crate / of_library)
}

/// A table of times for each record written.
pub fn list_table(title: &str, note: &str) {
    let title = format!("{title}, nanoseconds for each record written");
    let columns = ["input", "records", "crate", "library", "crate / library"];
    table(&title, note, &columns);
}

/// A line of such a table; without a time of the crate where it has none.
pub fn list_line(name: &str, records: usize, of_crate: Option<f64>, ours: f64) {
    let cell = |shown: &dyn Fn(f64) -> String| of_crate.map_or("-".to_string(), shown);
    line(&[
        name.to_string(),
        shown(records),
        cell(&|time| each(time, records)),
        each(ours, records),
        cell(&|time| ratio(time, ours)),
    ]);
}
