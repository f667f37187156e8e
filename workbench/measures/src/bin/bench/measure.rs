//! Measuring calls in turn, and what is told of the measurements.

use std::time::{Duration, Instant};

/// How often a call is measured, at most and at least.
const SAMPLES: usize = 31;
const FEWEST_SAMPLES: usize = 3;
/// How long one measurement takes at least, and when no more are taken.
const SAMPLE_TIME: Duration = Duration::from_millis(2);
const ENOUGH_TIME: Duration = Duration::from_millis(500);
/// What takes longer is measured once.
const ONCE: Duration = Duration::from_millis(300);

/// Who does the work.
#[derive(Clone, Copy, Debug, PartialEq, Eq)]
pub enum Who {
    Library,
    Reference,
    Fast,
    Tested,
}

impl Who {
    /// Whom the library is compared with.
    pub const RIVALS: [Who; 3] = [Who::Reference, Who::Fast, Who::Tested];

    pub fn name(self) -> &'static str {
        match self {
            Who::Library => "library",
            Who::Reference => "reference",
            Who::Fast => "fast",
            Who::Tested => "tested",
        }
    }
}

/// A call, and who does it.
pub type Call<'a> = (Who, &'a mut dyn FnMut());

/// Seconds for one run of a call, over so many runs.
fn seconds(runs: u32, call: &mut dyn FnMut()) -> f64 {
    let start = Instant::now();
    for _ in 0..runs {
        call();
    }
    start.elapsed().as_secs_f64() / f64::from(runs)
}

/// How a call is measured.
enum Runs {
    /// So many runs in a measurement.
    Many(u32),
    /// It was measured once, and took so many seconds.
    Once(f64),
}

impl Runs {
    fn of(call: &mut dyn FnMut()) -> Runs {
        let once = seconds(1, call);
        if once > ONCE.as_secs_f64() {
            return Runs::Once(once);
        }
        let mut runs = 1;
        while seconds(runs, call) * f64::from(runs) < SAMPLE_TIME.as_secs_f64() {
            runs *= 2;
        }
        Runs::Many(runs)
    }

    fn sample(&self, call: &mut dyn FnMut()) -> f64 {
        match *self {
            Runs::Many(runs) => seconds(runs, call),
            Runs::Once(seconds) => seconds,
        }
    }
}

/// The seconds of each call in each measurement.
pub struct Measured {
    who: Vec<Who>,
    samples: Vec<Vec<f64>>,
}

/// Measures calls in turn, so that whatever slows the machine slows all.
pub fn measure(calls: &mut [Call]) -> Measured {
    let each = calls.iter_mut();
    let runs: Vec<Runs> = each.map(|(_, call)| Runs::of(call)).collect();
    let start = Instant::now();
    let mut samples = vec![];
    while samples.len() < FEWEST_SAMPLES || samples.len() < SAMPLES && start.elapsed() < ENOUGH_TIME
    {
        let timed = calls.iter_mut().zip(&runs);
        samples.push(timed.map(|((_, call), runs)| runs.sample(call)).collect());
    }
    let who = calls.iter().map(|(who, _)| *who).collect();
    Measured { who, samples }
}

/// The middle of some values, and what a quarter and three quarters of them do not
/// exceed.
#[derive(Clone, Copy, Debug, PartialEq)]
pub struct Spread {
    pub middle: f64,
    pub quarters: [f64; 2],
}

impl Spread {
    fn of(mut values: Vec<f64>) -> Spread {
        values.sort_by(f64::total_cmp);
        let [low, middle, high] = [1, 2, 3].map(|quarter| values[(values.len() - 1) * quarter / 4]);
        Spread {
            middle,
            quarters: [low, high],
        }
    }
}

impl Measured {
    fn place(&self, who: Who) -> Option<usize> {
        self.who.iter().position(|&other| other == who)
    }

    /// One value of each measurement, none if one of those asked for was not
    /// measured.
    fn spread<const COUNT: usize>(
        &self,
        who: [Who; COUNT],
        value: impl Fn([f64; COUNT]) -> f64,
    ) -> Option<Spread> {
        let places = who.map(|who| self.place(who));
        if places.contains(&None) {
            return None;
        }
        let samples = self.samples.iter();
        let values = samples.map(|sample| value(places.map(|place| sample[place.unwrap_or(0)])));
        Some(Spread::of(values.collect()))
    }

    /// The middle time.
    pub fn time(&self, who: Who) -> Option<f64> {
        let spread = self.spread([who], |[time]| time)?;
        Some(spread.middle)
    }

    /// The library's time to another's, of each measurement.
    pub fn ratio(&self, who: Who) -> Option<Spread> {
        self.spread([Who::Library, who], |[library, other]| library / other)
    }

    /// The library's time to the better of reference and fast.
    pub fn ratio_to_best(&self) -> Option<Spread> {
        let who = [Who::Library, Who::Reference, Who::Fast];
        self.spread(who, |[library, reference, fast]| {
            library / reference.min(fast)
        })
    }

    /// The same with each time divided.
    pub fn divided(mut self, by: f64) -> Measured {
        for time in self.samples.iter_mut().flatten() {
            *time /= by;
        }
        self
    }
}
