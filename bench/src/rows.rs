//! Rows: an operation at three sizes, with alternating turns of the library's call and a plain
//! program.
use crate::measure::{in_turns, Work};

/// The same work by two programs, on a number of octets.
pub struct Case<'a> {
    pub octets: usize,
    pub ours: Work<'a>,
    pub plain: Work<'a>,
}

impl<'a> Case<'a> {
    /// Returns a case of two calls with the same result.
    pub fn new(
        octets: usize,
        ours: impl Fn() -> usize + 'a,
        plain: impl Fn() -> usize + 'a,
    ) -> Case<'a> {
        Case::repeated(octets, repeat(ours), repeat(plain))
    }

    /// Returns a case of two calls that build something once, and then repeat their work.
    pub fn repeated(
        octets: usize,
        ours: impl Fn(usize) -> usize + 'a,
        plain: impl Fn(usize) -> usize + 'a,
    ) -> Case<'a> {
        Case {
            octets,
            ours: Box::new(ours),
            plain: Box::new(plain),
        }
    }
}

fn repeat(call: impl Fn() -> usize) -> impl Fn(usize) -> usize {
    move |times| {
        let mut answer = 0;
        for _ in 0..times {
            answer = std::hint::black_box(call());
        }
        answer
    }
}

/// The figures of an operation: nanoseconds per octet at each size.
pub struct Row {
    pub group: &'static str,
    pub name: String,
    pub octets: [usize; 3],
    pub ours: [f64; 3],
    pub plain: [f64; 3],
}

impl Row {
    /// Returns the library's time relative to the plain program's.
    pub fn ratios(&self) -> [f64; 3] {
        std::array::from_fn(|size| self.ours[size] / self.plain[size])
    }
}

pub struct Rows {
    wanted: Vec<String>,
    pub found: Vec<Row>,
}

impl Rows {
    pub fn new(wanted: Vec<String>) -> Rows {
        Rows {
            wanted,
            found: Vec::new(),
        }
    }

    /// Measures an operation, if it is selected.
    pub fn add<'a>(&mut self, group: &'static str, name: &str, cases: impl Fn() -> [Case<'a>; 3]) {
        let whole = format!("{group}: {name}");
        if !self.wanted.is_empty() && !self.wanted.iter().any(|it| whole.contains(it.as_str())) {
            return;
        }
        eprintln!("{whole}");
        let cases = cases();
        let times = cases.each_ref().map(|case| {
            let answer = (case.ours)(1);
            assert_eq!(answer, (case.plain)(1), "{whole}, {} octets", case.octets);
            assert_ne!(answer, 0, "{whole}, {} octets", case.octets);
            in_turns(case.octets, [&case.ours, &case.plain])
        });
        self.found.push(Row {
            group,
            name: name.to_string(),
            octets: cases.each_ref().map(|case| case.octets),
            ours: times.map(|it| it[0]),
            plain: times.map(|it| it[1]),
        });
    }
}
