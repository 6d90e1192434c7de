//! Counting comparisons and reporting failures, for the check programs.

use std::fmt::Debug;

pub struct Tally {
    program: &'static str,
    compared: u64,
    failed: u64,
}

impl Tally {
    pub fn new(program: &'static str) -> Tally {
        Tally { program, compared: 0, failed: 0 }
    }

    /// Compares. `what` names the comparison and its arguments. The tenth failure ends the program.
    pub fn same<T: PartialEq + Debug>(&mut self, what: impl Debug, got: T, wanted: T) {
        self.compared += 1;
        if got != wanted {
            self.failed += 1;
            eprintln!("{}: {what:?}: {got:?}, not {wanted:?}", self.program);
            if self.failed == 10 {
                self.fail();
            }
        }
    }

    /// Takes over the counts of another tally.
    pub fn add(&mut self, other: Tally) {
        self.compared += other.compared;
        self.failed += other.failed;
    }

    /// Says how many comparisons were made since the last report.
    pub fn report(&mut self, what: &str) {
        println!("{}: {what}: {} compared", self.program, self.compared);
        self.compared = 0;
    }

    /// Ends the program with status 1.
    pub fn fail(&self) -> ! {
        eprintln!("{}: FAILED", self.program);
        std::process::exit(1);
    }

    /// Ends the program, with status 1 if anything failed.
    pub fn end(self) -> ! {
        if self.failed > 0 {
            self.fail();
        }
        println!("{}: ok", self.program);
        std::process::exit(0);
    }
}
