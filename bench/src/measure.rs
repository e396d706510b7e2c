//! Measures processor times, the minimum of many turns, and peak memory.
use std::process::{Child, Command, Stdio};

#[repr(C)]
#[derive(Default)]
struct Time {
    seconds: i64,
    fraction: i64,
}

#[repr(C)]
#[derive(Default)]
struct Usage {
    user: Time,
    system: Time,
    peak: i64,
    rest: [i64; 13],
}

extern "C" {
    fn clock_gettime(clock: i32, time: *mut Time) -> i32;
    fn getrusage(who: i32, usage: *mut Usage) -> i32;
    fn wait4(child: i32, status: *mut i32, options: i32, usage: *mut Usage) -> i32;
}

const PROCESSOR_TIME: i32 = 2;

const ITSELF: i32 = 0;

const CHILDREN: i32 = -1;

/// Work that is repeated a number of times.
pub type Work<'a> = Box<dyn Fn(usize) -> usize + 'a>;

/// Returns the processor time of this process so far, in seconds.
fn processor_time() -> f64 {
    let mut time = Time::default();
    assert_eq!(unsafe { clock_gettime(PROCESSOR_TIME, &mut time) }, 0);
    time.seconds as f64 + time.fraction as f64 * 1e-9
}

/// Returns the processor time of a call, in seconds.
pub fn processor_seconds(call: impl FnOnce() -> usize) -> f64 {
    let start = processor_time();
    std::hint::black_box(call());
    processor_time() - start
}

/// Length of a turn, in seconds, and number of turns.
const TURN: f64 = 0.002;

const TURNS: usize = 15;

/// Returns nanoseconds of processor time per octet, of each work, the minimum of alternating turns.
/// The time of what a work does once is subtracted.
pub fn in_turns(octets: usize, works: [&Work; 2]) -> [f64; 2] {
    let once = processor_seconds(|| works[0](1)).max(1e-8);
    let runs = 1 + (TURN / once) as usize;
    let mut made = [f64::INFINITY; 2];
    let mut done = [f64::INFINITY; 2];
    for _ in 0..TURNS {
        for (place, work) in works.iter().enumerate() {
            made[place] = made[place].min(processor_seconds(|| work(0)));
            done[place] = done[place].min(processor_seconds(|| work(runs)));
        }
    }
    std::array::from_fn(|place| (done[place] - made[place]) / runs as f64 * 1e9 / octets as f64)
}

fn usage(who: i32) -> Usage {
    let mut usage = Usage::default();
    assert_eq!(unsafe { getrusage(who, &mut usage) }, 0);
    usage
}

/// Returns the processor time of the children that have ended, in seconds.
fn time_of_children() -> f64 {
    let usage = usage(CHILDREN);
    let of = |time: Time| time.seconds as f64 + time.fraction as f64 * 1e-6;
    of(usage.user) + of(usage.system)
}

/// Returns the peak memory of this process, in octets.
pub fn peak() -> usize {
    usage(ITSELF).peak as usize * 1024
}

/// Returns the peak memory of a child up to its end, in octets.
pub fn peak_of(child: Child) -> usize {
    let mut usage = Usage::default();
    let mut status = 0;
    let id = child.id() as i32;
    assert_eq!(unsafe { wait4(id, &mut status, 0, &mut usage) }, id);
    assert_eq!(status, 0);
    usage.peak as usize * 1024
}

/// Returns the minimum processor time of a command, of many runs, in seconds.
pub fn seconds_of_child(command: &str, arguments: &[&str]) -> f64 {
    let times = (0..40).map(|_| {
        let start = time_of_children();
        let mut run = Command::new(command);
        let status = run.args(arguments).stdout(Stdio::null()).status();
        assert!(status.expect("the command is there").success());
        time_of_children() - start
    });
    times.fold(f64::INFINITY, f64::min)
}
