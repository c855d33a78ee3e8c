//! The table and the plot of what was measured.

use crate::measure::{median, quantile, ratio, Times};
use crate::plot::{svg, Bar, Panel, COLOURS};
use crate::workload::Workload;
use std::fmt::Write;

/// The engines by name, ours first; for each workload the times of each.
pub struct Report<'a> {
    pub engines: Vec<&'static str>,
    pub rounds: usize,
    pub results: Vec<(&'a Workload, Vec<Times>)>,
}

fn micros(times: &[f64]) -> f64 {
    median(times.iter().copied()) / 1e3
}

/// How long a snapshot scan takes, in percent of a plain scan of the same rows in the same round.
fn percent(times: &Times) -> f64 {
    100.0 * ratio(&times.plain, &times.calls)
}

impl Report<'_> {
    /// How many times as fast as the engine at a place ours is.
    fn ratio(times: &[Times], at: usize) -> f64 {
        ratio(&times[0].calls, &times[at].calls)
    }

    /// A line for each workload, a column for each engine.
    fn lines(&self, out: &mut String, title: &str, scans: bool, cell: impl Fn(&[Times], usize) -> String) {
        let width = |engine: &str| (engine.len() + 2).max(9);
        let _ = write!(out, "{title:<34}");
        for engine in &self.engines {
            let _ = write!(out, "{engine:>0$}", width(engine));
        }
        out.push('\n');
        for (workload, times) in self.results.iter().filter(|result| result.0.scans || !scans) {
            let _ = write!(out, "{:<34}", workload.name);
            for (at, engine) in self.engines.iter().enumerate() {
                let _ = write!(out, "{:>1$}", cell(times, at), width(engine));
            }
            out.push('\n');
        }
        out.push('\n');
    }

    pub fn table(&self) -> String {
        let mut out = String::new();
        self.lines(&mut out, "microseconds a call", false, |times, at| format!("{:.2}", micros(&times[at].calls)));
        let title = "how many times as fast Nizgulk is";
        self.lines(&mut out, title, false, |times, at| format!("{:.2}", Self::ratio(times, at)));
        self.lines(&mut out, "a plain scan, microseconds", true, |times, at| {
            format!("{:.2}", micros(&times[at].plain))
        });
        self.lines(&mut out, "a snapshot scan, % of a plain one", true, |times, at| {
            format!("{:.0}", percent(&times[at]))
        });
        (1..self.engines.len()).for_each(|at| self.verdict(&mut out, at));
        let _ = writeln!(
            out,
            "{} rounds; of each ratio half of the rounds lie within {:.0} % of the figure",
            self.rounds,
            100.0 * self.spread()
        );
        out
    }

    /// Where ours is ahead of an engine, and where behind.
    fn verdict(&self, out: &mut String, at: usize) {
        let behind: Vec<String> = self
            .results
            .iter()
            .filter(|(_, times)| Self::ratio(times, at) < 1.0)
            .map(|(workload, times)| format!("{} {:.2}", workload.short, Self::ratio(times, at)))
            .collect();
        let (all, engine) = (self.results.len(), self.engines[at]);
        let _ = write!(out, "ahead of {engine} on {} of {all}", all - behind.len());
        let _ = match behind.as_slice() {
            [] => writeln!(out),
            _ => writeln!(out, ", behind on {}", behind.join(", ")),
        };
    }

    /// How far the quarters lie from the median, as a part of it, at the worst of all ratios.
    fn spread(&self) -> f64 {
        let mut worst = 0.0;
        for (_, times) in &self.results {
            for other in &times[1..] {
                let ratios = || times[0].calls.iter().zip(&other.calls).map(|(ours, other)| other / ours);
                let [low, middle, high] = [0.25, 0.5, 0.75].map(|part| quantile(ratios(), part));
                worst = f64::max(worst, f64::max(high / middle - 1.0, 1.0 - low / middle));
            }
        }
        worst
    }

    /// What calls the workloads have.
    pub fn kinds(&self) -> String {
        self.results.iter().map(|(workload, _)| format!("{}: {}\n", workload.short, workload.kinds())).collect()
    }

    /// How many times as fast ours is, an engine a line.
    pub fn tried(&self) -> String {
        let mut out = format!("{:<46}", format!("how many times as fast Nizgulk is, {} rounds", self.rounds));
        for (workload, _) in &self.results {
            let _ = write!(out, "{:>12}", workload.short);
        }
        out.push('\n');
        for (at, engine) in self.engines.iter().enumerate().skip(1) {
            let _ = write!(out, "{engine:<46}");
            for (_, times) in &self.results {
                let _ = write!(out, "{:>12.2}", Self::ratio(times, at));
            }
            out.push('\n');
        }
        out
    }

    fn group(&self, name: &str, bar: impl Fn(usize) -> (f64, String)) -> (String, Vec<Bar>) {
        let bars = self.engines.iter().enumerate().take(COLOURS.len()).map(|(at, engine)| {
            let (value, label) = bar(at);
            Bar { name: engine.to_string(), colour: at, value, label }
        });
        (name.to_string(), bars.collect())
    }

    pub fn plot(&self) -> String {
        let times = self.results.iter().map(|(workload, times)| {
            self.group(workload.name, |at| {
                let value = micros(&times[at].calls);
                let beside = if at == 0 { String::new() } else { format!("  ({:.2}×)", Self::ratio(times, at)) };
                (value, format!("{value:.2} µs{beside}"))
            })
        });
        let scans = self.results.iter().filter(|(workload, _)| workload.scans).map(|(workload, times)| {
            self.group(workload.name, |at| {
                let value = percent(&times[at]);
                (value, format!("{value:.0} %"))
            })
        });
        let title = "Time a call (in brackets: how many times as fast Nizgulk is)".to_string();
        svg(&[
            Panel { title, unit: "µs", groups: times.collect() },
            Panel {
                title: "A snapshot scan, in percent of a plain scan".to_string(),
                unit: "%",
                groups: scans.collect(),
            },
        ])
    }
}
