//! The table of times and ratios, line by line, and the summary of the ratios.

use crate::time::Times;

/// A ratio of one line: what it is a ratio of, and what it is summed up with, as a K.
struct Ratio {
    of: String,
    group: String,
    value: f64,
}

/// A table in print: its lines and its ratios so far.
#[derive(Default)]
pub struct Table {
    lines: String,
    ratios: Vec<Ratio>,
}

/// The median of sorted ratios.
fn median(sorted: &[f64]) -> f64 {
    sorted[sorted.len() / 2]
}

/// The different ones among some names, in the order in which they come.
fn different<'a>(names: impl Iterator<Item = &'a str>) -> Vec<&'a str> {
    let mut seen = Vec::new();
    for name in names {
        if !seen.contains(&name) {
            seen.push(name);
        }
    }
    seen
}

impl Table {
    /// Prints what was measured, and the head.
    pub fn start(measured: &str) -> Table {
        let mut table = Table::default();
        table.say(measured);
        table.say("");
        table.say(&format!(
            "| {:<46} | {:>10} | {:>8} | {:>9} | {:>12} | {:>14} |",
            "scenario", "archive ns", "peer ns", "second ns", "archive/peer", "second/archive"
        ));
        table.say("|---|---:|---:|---:|---:|---:|");
        table
    }

    /// Prints a line and keeps it.
    fn say(&mut self, line: &str) {
        println!("{line}");
        self.lines += line;
        self.lines.push('\n');
    }

    /// All the lines that were printed.
    pub fn lines(self) -> String {
        self.lines
    }

    /// Prints one line of times; answers archive/peer.
    fn say_times(&mut self, scenario: &str, times: Times) -> f64 {
        let ratio = times.archive / times.peer;
        self.say(&format!(
            "| {:<46} | {:>10.1} | {:>8.1} | {:>9.0} | {:>12.2} | {:>14.1} |",
            scenario,
            times.archive,
            times.peer,
            times.second,
            ratio,
            times.second / times.archive
        ));
        ratio
    }

    /// Prints the line of a scenario of a call, and takes its ratio for the summary.
    pub fn line(&mut self, call: &'static str, group: &str, scenario: &str, times: Times) {
        let value = self.say_times(&format!("{call}, {scenario}"), times);
        self.take(format!("archive/peer, {call}"), group, value);
    }

    /// Takes a ratio for the summary.
    fn take(&mut self, of: String, group: &str, value: f64) {
        let group = String::from(group);
        self.ratios.push(Ratio { of, group, value });
    }

    /// Prints a line that the summary leaves out: the sum of others, or what others are held against.
    pub fn aside(&mut self, name: &str, scenario: &str, times: Times) {
        self.say_times(&format!("{name}, {scenario}"), times);
    }

    /// Prints how many times a call takes what another takes, each contestant for itself, in the columns of their times;
    /// takes the archive's for the summary.
    pub fn times_over(
        &mut self,
        name: &'static str,
        group: &str,
        scenario: &str,
        [times, over]: [Times; 2],
    ) {
        let value = times.archive / over.archive;
        self.say(&format!(
            "| {:<46} | {:>8.2} x | {:>6.2} x | {:>7.1} x | {:>12} | {:>14} |",
            format!("{name}, {scenario}"),
            value,
            times.peer / over.peer,
            times.second / over.second,
            "",
            ""
        ));
        self.take(format!("{name} of the archive"), group, value);
    }

    /// The sorted ratios of one kind, of one group or of all.
    fn sorted(&self, of: &str, group: Option<&str>) -> Vec<f64> {
        let mut sorted: Vec<f64> = self
            .ratios
            .iter()
            .filter(|ratio| ratio.of == of && group.is_none_or(|group| ratio.group == group))
            .map(|ratio| ratio.value)
            .collect();
        sorted.sort_by(f64::total_cmp);
        sorted
    }

    /// Prints for each kind of ratio the smallest, the largest and the median, and the median of each group.
    pub fn print_summary(&mut self) {
        let mut lines = vec![String::new()];
        for of in different(self.ratios.iter().map(|ratio| ratio.of.as_str())) {
            let all = self.sorted(of, None);
            let (least, most) = (all[0], all[all.len() - 1]);
            let mut line = format!(
                "- {of}: {least:.2} to {most:.2}, median {:.2}",
                median(&all)
            );
            let of_kind = self.ratios.iter().filter(|ratio| ratio.of == of);
            for group in different(of_kind.map(|ratio| ratio.group.as_str())) {
                line += &format!("; {group}: {:.2}", median(&self.sorted(of, Some(group))));
            }
            lines.push(line);
        }
        lines.iter().for_each(|line| self.say(line));
    }
}
