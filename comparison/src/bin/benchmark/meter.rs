//! One input measured: the implementations take turns, and must agree.

use crate::fail;
use comparison::expected::Rules;
use comparison::library::{Answer, Case, Library, Proved};
use comparison::plain::library::Plain;
use std::hint::black_box;
use std::sync::mpsc::{channel, RecvTimeoutError};
use std::time::{Duration, Instant};

/// An implementation, and its name in the tables.
pub struct Implementation {
    pub name: &'static str,
    library: &'static dyn Library,
}

pub const PROVED: Implementation = Implementation { name: "proved", library: &Proved };
pub const REFERENCE: Implementation = Implementation { name: "reference", library: &Rules };
pub const PLAIN: Implementation = Implementation { name: "plain", library: &Plain };

/// A sample is as many calls as take at least this long together.
pub const SAMPLE: Duration = Duration::from_micros(50);
/// An input on which a first call takes this long gets three samples.
pub const SLOW: Duration = Duration::from_millis(20);
/// A first call that takes this long ends the program.
const GIVE_UP: Duration = Duration::from_secs(10);

/// Makes the call, and ends the program where it does not come back.
fn watched<T>(place: &str, call: impl FnOnce() -> T) -> T {
    let (back, waiting) = channel::<()>();
    let place = place.to_string();
    std::thread::spawn(move || {
        if waiting.recv_timeout(GIVE_UP) == Err(RecvTimeoutError::Timeout) {
            fail(format!("{place}: not done after {} s", GIVE_UP.as_secs()), 1);
        }
    });
    let answer = call();
    drop(back);
    answer
}

/// The buffers of a case, lent to one implementation for call after call.
#[derive(PartialEq)]
struct Buffers(Vec<Vec<u8>>);

impl Buffers {
    fn new(case: &Case) -> Buffers {
        Buffers(case.parts().iter().map(|(_, bytes)| bytes.to_vec()).collect())
    }

    /// So many calls in a row, and the last answer. A report lengthens its history, so that the nine bytes are given anew
    /// before each.
    fn time(&mut self, case: &Case, library: &dyn Library, calls: u32) -> (Duration, Answer) {
        let mut lent: Vec<&mut [u8]> = self.0.iter_mut().map(|bytes| &mut bytes[..]).collect();
        let mut last = Ok(0);
        let start = Instant::now();
        for _ in 0..calls {
            if let Case::Report { history, .. } = case {
                lent[2].copy_from_slice(history);
            }
            last = black_box(black_box(case).perform(black_box(library), black_box(&mut lent)));
        }
        (start.elapsed(), last)
    }
}

/// One implementation on one input: how long its first call took, and the least time of a call so far, in seconds.
struct Meter<'a> {
    implementation: &'a Implementation,
    buffers: Buffers,
    answer: Answer,
    calls: u32,
    first: Duration,
    least: f64,
}

impl<'a> Meter<'a> {
    /// Times the first call, and finds how many calls make a sample.
    fn start(place: &str, case: &Case, implementation: &'a Implementation) -> Meter<'a> {
        let mut buffers = Buffers::new(case);
        let place = format!("{place}: {}", implementation.name);
        let (first, answer) = watched(&place, || buffers.time(case, implementation.library, 1));
        let (mut calls, mut taken) = (1, first);
        while taken < SAMPLE {
            calls *= 2;
            taken = buffers.time(case, implementation.library, calls).0;
        }
        Meter { implementation, buffers, answer, calls, first, least: first.as_secs_f64() }
    }

    fn sample(&mut self, case: &Case) {
        let taken = self.buffers.time(case, self.implementation.library, self.calls).0.as_secs_f64();
        self.least = self.least.min(taken / f64::from(self.calls));
    }
}

/// What an input came to: the answer and the buffers of all, and the seconds of a call for each implementation.
pub struct Measured {
    pub answer: Answer,
    pub buffers: Vec<Vec<u8>>,
    pub seconds: Vec<f64>,
}

/// Ends the program where two answers, or the bytes left in the buffers, differ.
fn compare(place: &str, first: &Meter, other: &Meter) {
    let names = (first.implementation.name, other.implementation.name);
    if first.answer != other.answer {
        fail(format!("{place}: {} answers {:?}, {} {:?}", names.0, first.answer, names.1, other.answer), 1);
    }
    if first.buffers != other.buffers {
        fail(format!("{place}: {} leaves other bytes than {}", names.1, names.0), 1);
    }
}

/// The call of this case in each implementation; the samples take turns.
pub fn measure(place: &str, case: &Case, implementations: &[Implementation], samples: usize) -> Measured {
    let mut meters: Vec<Meter> = implementations.iter().map(|i| Meter::start(place, case, i)).collect();
    meters.iter().for_each(|meter| compare(place, &meters[0], meter));
    let slow = meters.iter().any(|meter| meter.first >= SLOW);
    for _ in 0..if slow { samples.min(3) } else { samples } {
        meters.iter_mut().for_each(|meter| meter.sample(case));
    }
    meters.iter().for_each(|meter| compare(place, &meters[0], meter));
    let seconds = meters.iter().map(|meter| meter.least).collect();
    let first = meters.swap_remove(0);
    Measured { answer: first.answer, buffers: first.buffers.0, seconds }
}
