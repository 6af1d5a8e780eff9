// Times jobs that are done in two ways, and prints the medians and their ratio.
use std::time::Instant;

const RUNS: usize = 501;
const SHORTEST_RUN_NS: f64 = 300_000.0;

// One way of doing a job: each repetition makes `calls` calls, and each time is one run's nanoseconds a call.
struct Way {
    repeat: Box<dyn FnMut()>,
    calls: usize,
    repetitions: usize,
    times: Vec<f64>,
}

impl Way {
    // A way with as many repetitions a run as make it last far longer than the clock's resolution.
    fn new(calls: usize, repeat: impl FnMut() + 'static) -> Way {
        let mut way = Way { repeat: Box::new(repeat), calls, repetitions: 1, times: Vec::new() };
        while way.run() < SHORTEST_RUN_NS {
            way.repetitions *= 2;
        }
        way
    }

    // Makes one run, and gives its nanoseconds.
    fn run(&mut self) -> f64 {
        let start = Instant::now();
        for _ in 0..self.repetitions {
            (self.repeat)();
        }
        start.elapsed().as_nanos() as f64
    }

    // Times one run, and gives its nanoseconds a call.
    fn time(&mut self) -> f64 {
        let time = self.run() / (self.repetitions * self.calls) as f64;
        self.times.push(time);
        time
    }
}

// A job that is done both ways.
pub struct Job {
    what: String,
    proved: Way,
    plain: Way,
    ratios: Vec<f64>,
}

impl Job {
    // A job whose repetitions make `calls` calls each.
    pub fn new(what: &str, calls: usize, proved: impl FnMut() + 'static, plain: impl FnMut() + 'static) -> Job {
        Job { what: what.into(), proved: Way::new(calls, proved), plain: Way::new(calls, plain), ratios: Vec::new() }
    }

    // Times both ways, one right after the other.
    fn time(&mut self) {
        let proved = self.proved.time();
        let plain = self.plain.time();
        self.ratios.push(proved / plain);
    }

    // The median of the proved times.
    pub fn proved_ns(&mut self) -> f64 {
        quantile(&mut self.proved.times, 0.5)
    }

    // What it took: both medians, their ratio, and the quartiles of the ratio of runs.
    pub fn row(&mut self) -> String {
        let (proved, plain) = (self.proved_ns(), quantile(&mut self.plain.times, 0.5));
        let (low, high) = (quantile(&mut self.ratios, 0.25), quantile(&mut self.ratios, 0.75));
        format!("{:50} {proved:11.1} {plain:11.1} {:6.2}   {low:5.2} .. {high:5.2}", self.what, proved / plain)
    }
}

// What stands at a fraction of a list in order: its median at 0.5.
fn quantile(list: &mut [f64], fraction: f64) -> f64 {
    list.sort_by(f64::total_cmp);
    list[(fraction * (list.len() - 1) as f64).round() as usize]
}

// Times all jobs in turn, and again, so that a change of the machine's speed meets all of them.
pub fn measure(jobs: &mut [Job]) {
    for _ in 0..RUNS {
        jobs.iter_mut().for_each(Job::time);
    }
}

// The head of a table of rows.
pub fn head(what: &str) -> String {
    format!("{what:50} {:>11} {:>11} {:>6}   {:14}", "proved ns", "plain ns", "ratio", "its quartiles")
}
