//! Calls counted and compared, kind by kind.

/// The differences that are printed of a kind of call.
const SHOWN: u64 = 5;
/// Document 01's numbers: done, and the refusals.
const NUMBERS: usize = 12;

pub struct Tally {
    name: &'static str,
    pub calls: u64,
    differences: u64,
    numbers: [u64; NUMBERS],
}

impl Tally {
    pub fn new(name: &'static str) -> Self {
        Self {
            name,
            calls: 0,
            differences: 0,
            numbers: [0; NUMBERS],
        }
    }

    /// A call of a function of numbers.
    pub fn count(&mut self, arguments: &[u32], port: u64, oracle: u64) {
        self.note(0, port == oracle, || {
            format!("{arguments:08x?}: port {port:08x}, oracle {oracle:08x}")
        });
    }

    /// A call, the oracle's number of its answer, and what tells a difference.
    pub fn note(&mut self, number: usize, same: bool, text: impl FnOnce() -> String) {
        self.calls += 1;
        self.numbers[number] += 1;
        if same {
            return;
        }
        self.differences += 1;
        if self.differences <= SHOWN {
            println!("  {} {}", self.name, text());
        }
    }

    /// Prints the line, and answers the differences.
    pub fn close(self) -> u64 {
        let (name, calls, differences) = (self.name, self.calls, self.differences);
        let refused: String = (1..NUMBERS)
            .filter(|&number| self.numbers[number] > 0)
            .map(|number| format!("  {number}: {}", self.numbers[number]))
            .collect();
        let refused = match refused.is_empty() {
            true => refused,
            false => format!("  refused{refused}"),
        };
        println!("{name:<44}{calls:>12} calls{differences:>6} differences{refused}");
        differences
    }
}

/// Counts the cases that a call has met.
pub fn count_met<const N: usize>(counts: &mut [u64; N], met: [bool; N]) {
    for (count, met) in counts.iter_mut().zip(met) {
        *count += u64::from(met);
    }
}

/// Prints how many calls have met each case.
pub fn print_met<const N: usize>(calls: &str, names: [&str; N], counts: [u64; N]) {
    let case = |(name, count): (&str, u64)| format!("  {name}: {count}");
    let cases: String = names.into_iter().zip(counts).map(case).collect();
    println!("{calls}{cases}");
}
