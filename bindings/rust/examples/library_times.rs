//! Times `check` from Rust, for `bench/library`.
//!
//! `library_times times ROUNDS FILE..`: in each round, tile by tile, a batch of calls. A line for each tile of a round: its
//! number in the list, and the nanoseconds of processor time that a call takes.
//!
//! `library_times rate SECONDS THREADS FILE..`: all tiles again and again, by so many threads at once. One line: the
//! calls, the seconds of processor time and those of the clock.

use mvtgate::{check, OutOfMemory, Profile};
use std::error::Error;
use std::time::{Duration, Instant};
use std::{env, fs, thread};

/// Time of the processor, which the standard library doesn't give.
mod clock {
    use std::os::raw::{c_int, c_long};
    use std::time::Duration;

    pub const PROCESS: c_int = 2;
    pub const THREAD: c_int = 3;

    #[repr(C)]
    struct Timespec {
        seconds: c_long,
        nanoseconds: c_long,
    }

    extern "C" {
        fn clock_gettime(clock: c_int, time: *mut Timespec) -> c_int;
    }

    /// What the clock of the process or of this thread says.
    pub fn read(clock: c_int) -> Duration {
        let mut time = Timespec { seconds: 0, nanoseconds: 0 };
        // SAFETY: the function writes to the time that it is given, which has the layout of Linux on x86-64.
        let status = unsafe { clock_gettime(clock, &mut time) };
        assert_eq!(status, 0);
        Duration::new(time.seconds as u64, time.nanoseconds as u32)
    }
}

fn time(tile: &[u8], calls: u32) -> Result<Duration, OutOfMemory> {
    let before = clock::read(clock::THREAD);
    for _ in 0..calls {
        check(tile, Profile::Polygon)?;
    }
    Ok((clock::read(clock::THREAD) - before) / calls)
}

/// How many calls take about two milliseconds.
fn batch(tile: &[u8]) -> Result<u32, OutOfMemory> {
    let one = time(tile, 3)?.as_nanos().max(10);
    Ok((2_000_000 / one).clamp(1, 100_000) as u32)
}

fn print_times(tiles: &[Vec<u8>], rounds: u32) -> Result<(), OutOfMemory> {
    for _ in 0..rounds {
        for (number, tile) in tiles.iter().enumerate() {
            println!("{} {}", number, time(tile, batch(tile)?)?.as_nanos());
        }
    }
    Ok(())
}

/// The calls of one thread until this time.
fn calls_until(tiles: &[Vec<u8>], end: Instant) -> Result<usize, OutOfMemory> {
    let mut calls = 0;
    while Instant::now() < end {
        for tile in tiles {
            check(tile, Profile::Polygon)?;
        }
        calls += tiles.len();
    }
    Ok(calls)
}

fn print_rate(tiles: &[Vec<u8>], length: Duration, count: usize) -> Result<(), OutOfMemory> {
    let (used, begin) = (clock::read(clock::PROCESS), Instant::now());
    let calls: Result<usize, OutOfMemory> = thread::scope(|scope| {
        let threads: Vec<_> = (0..count).map(|_| scope.spawn(|| calls_until(tiles, begin + length))).collect();
        threads.into_iter().map(|it| it.join().expect("no call panics")).sum()
    });
    let (took, passed) = (clock::read(clock::PROCESS) - used, begin.elapsed());
    println!("{} {:.6} {:.6}", calls?, took.as_secs_f64(), passed.as_secs_f64());
    Ok(())
}

fn main() -> Result<(), Box<dyn Error>> {
    let words: Vec<String> = env::args().skip(1).collect();
    let read = |files: &[String]| files.iter().map(fs::read).collect::<Result<Vec<_>, _>>();
    match words.iter().map(String::as_str).collect::<Vec<_>>()[..] {
        ["times", rounds, _, ..] => print_times(&read(&words[2..])?, rounds.parse()?)?,
        ["rate", seconds, threads, _, ..] => {
            print_rate(&read(&words[3..])?, Duration::from_secs_f64(seconds.parse()?), threads.parse()?)?
        }
        _ => return Err("usage: library_times times ROUNDS FILE.. | library_times rate SECONDS THREADS FILE..".into()),
    }
    Ok(())
}
