//! Timing, and what the benchmark prints: a line for each case or for those that differ in level and mask alone, then tables to keep.
use std::time::Instant;

/// Nanoseconds of one call, ours and the other side's where there is one.
#[derive(Clone, Copy)]
pub struct Times {
    pub ours: f64,
    pub theirs: Option<f64>,
}

/// How often to call in a round that is long enough to be measured.
fn turns(call: &mut dyn FnMut()) -> u32 {
    let mut turns = 1u32;
    loop {
        let start = Instant::now();
        for _ in 0..turns {
            call();
        }
        if start.elapsed().as_micros() >= 300 {
            return turns;
        }
        turns *= 2;
    }
}

/// Nanoseconds of one call in a round.
fn round(call: &mut dyn FnMut(), turns: u32) -> f64 {
    let start = Instant::now();
    for _ in 0..turns {
        call();
    }
    start.elapsed().as_secs_f64() * 1e9 / f64::from(turns)
}

const ROUNDS: usize = 45;

/// The least of many short rounds of either side, by turns, so that what else the machine does meets both and some rounds are free of it.
pub fn time(ours: &mut dyn FnMut(), theirs: Option<&mut dyn FnMut()>) -> Times {
    let n = turns(ours);
    let Some(theirs) = theirs else {
        let least = (0..ROUNDS).map(|_| round(ours, n)).fold(f64::INFINITY, f64::min);
        return Times { ours: least, theirs: None };
    };
    let m = turns(theirs);
    let least = |(a, b): (f64, f64), (c, d): (f64, f64)| (a.min(c), b.min(d));
    let infinite = (f64::INFINITY, f64::INFINITY);
    let (a, b) = (0..ROUNDS).map(|_| (round(ours, n), round(theirs, m))).fold(infinite, least);
    Times { ours: a, theirs: Some(b) }
}

fn geometric(numbers: impl Iterator<Item = f64>) -> Option<f64> {
    let (sum, count) = numbers.fold((0.0, 0), |(sum, count), x| (sum + x.ln(), count + 1));
    (count > 0).then(|| (sum / f64::from(count)).exp())
}

/// A number, or a dash where there is none.
fn cell(number: Option<f64>, width: usize, digits: usize) -> String {
    number.map_or(format!("{:>width$}", "-"), |x| format!("{x:width$.digits$}"))
}

/// The cases of a line: what each is called and its times; and how many modules the square has, 0 where there is none.
pub struct Line {
    pub name: String,
    pub modules: usize,
    pub cases: Vec<(String, Times)>,
}

impl Line {
    fn ours(&self) -> Option<f64> {
        geometric(self.cases.iter().map(|(_, t)| t.ours))
    }

    fn theirs(&self) -> Option<f64> {
        geometric(self.cases.iter().filter_map(|(_, t)| t.theirs))
    }

    fn ratios(&self) -> impl Iterator<Item = (&str, f64)> {
        self.cases.iter().filter_map(|(name, t)| Some((name.as_str(), t.ours / t.theirs?)))
    }

    fn least(&self) -> f64 {
        self.ratios().map(|r| r.1).fold(f64::INFINITY, f64::min)
    }

    fn greatest(&self) -> f64 {
        self.ratios().map(|r| r.1).fold(0.0, f64::max)
    }

    fn each_module(&self) -> Option<f64> {
        (self.modules > 0).then(|| self.ours().unwrap_or(0.0) / self.modules as f64)
    }

    /// The ratio as a table has it: the least and the greatest, where they differ.
    fn range(&self) -> String {
        let (least, greatest) = (format!("{:.2}", self.least()), format!("{:.2}", self.greatest()));
        match self.ratios().next() {
            None => "-".to_string(),
            Some(_) if least == greatest => least,
            Some(_) => format!("{least} to {greatest}"),
        }
    }
}

/// What is measured under one name, line by line.
struct Group {
    name: String,
    lines: Vec<Line>,
}

pub struct Sheet {
    all: bool,
    groups: Vec<Group>,
}

impl Sheet {
    pub fn new(all: bool) -> Self {
        Self { all, groups: Vec::new() }
    }

    /// Starts a part, beside the other side that it is measured against.
    pub fn part(&self, title: &str, other: &str) {
        let other = format!("{other}, ns");
        println!(
            "\n{title:52} {:>11} {other:>14} {:>7} {:>7} {:>9} {:>12}",
            "ours, ns", "ratio", "least", "greatest", "ns a module"
        );
    }

    /// Prints a line and keeps it in a group.
    pub fn line(&mut self, group: &str, line: Line) {
        let (ours, theirs) = (line.ours(), line.theirs());
        let ratio = ours.zip(theirs).map(|(a, b)| a / b);
        let several = ratio.filter(|_| line.cases.len() > 1);
        println!(
            "{:52} {} {} {} {} {} {}",
            format!("{group}, {}", line.name),
            cell(ours, 11, 1),
            cell(theirs, 14, 1),
            cell(ratio, 7, 3),
            cell(several.map(|_| line.least()), 7, 3),
            cell(several.map(|_| line.greatest()), 9, 3),
            cell(line.each_module(), 12, 3),
        );
        if self.all && line.cases.len() > 1 {
            for (name, t) in &line.cases {
                let ratio = t.theirs.map(|b| t.ours / b);
                println!("    {name:48} {} {} {}", cell(Some(t.ours), 11, 1), cell(t.theirs, 14, 1), cell(ratio, 7, 3));
            }
        }
        match self.groups.iter_mut().find(|g| g.name == group) {
            Some(group) => group.lines.push(line),
            None => self.groups.push(Group { name: group.to_string(), lines: vec![line] }),
        }
    }

    /// One case as a line of its own.
    pub fn case(&mut self, group: &str, name: &str, modules: usize, times: Times) {
        let cases = vec![(String::new(), times)];
        self.line(group, Line { name: name.to_string(), modules, cases });
    }

    /// The tables at the end, in Markdown: ratios by line, what a module takes, and each group's mean and worst.
    pub fn end(&self) {
        self.table("ratio, least to greatest over levels and masks", |_| true, Line::range);
        let has_modules = |g: &Group| g.lines.iter().all(|l| l.modules > 0);
        self.table("our ns a module", has_modules, |line| cell(line.each_module(), 0, 2));
        println!("\n| group | geometric mean | worst | at |\n|---|---|---|---|");
        for group in &self.groups {
            let ratios = || group.lines.iter().flat_map(|l| l.ratios().map(move |(case, r)| (l, case, r)));
            let Some(mean) = geometric(ratios().map(|r| r.2)) else { continue };
            let (line, case, worst) = ratios().max_by(|a, b| a.2.total_cmp(&b.2)).unwrap();
            let at = format!("{} {case}", line.name);
            println!("| {} | {mean:.3} | {worst:.3} | {} |", group.name, at.trim());
        }
    }

    /// A row for each group, in a table for all groups that have the same columns.
    fn table(&self, title: &str, shown: impl Fn(&Group) -> bool, show: impl Fn(&Line) -> String) {
        let mut last = String::new();
        for group in self.groups.iter().filter(|g| shown(g)) {
            let columns = group.lines.iter().map(|l| l.name.as_str()).collect::<Vec<_>>().join(" | ");
            if columns != last {
                println!("\n| {title} | {columns} |\n|---|{}", "---|".repeat(group.lines.len()));
                last = columns;
            }
            let row = group.lines.iter().map(&show).collect::<Vec<_>>().join(" | ");
            println!("| {} | {row} |", group.name);
        }
    }
}
