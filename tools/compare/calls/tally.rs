//! How many calls were made of each function, how many differ, and the first that does.
use std::fmt::Debug;
use std::panic::{AssertUnwindSafe, catch_unwind};

struct Row {
    function: &'static str,
    calls: usize,
    differences: usize,
}

#[derive(Default)]
pub struct Tally {
    module: &'static str,
    rows: Vec<Row>,
    calls: usize,
    differences: usize,
    first: Option<String>,
}

impl Tally {
    pub fn begin(&mut self, module: &'static str) {
        self.module = module;
        self.rows.clear();
    }

    /// Counts a call of which the proved library gave `ours`.
    pub fn call<A: PartialEq + Debug>(
        &mut self,
        function: &'static str,
        given: impl Debug,
        ours: A,
        theirs: impl FnOnce() -> A,
    ) {
        let theirs = catch_unwind(AssertUnwindSafe(theirs));
        let same = theirs.as_ref().is_ok_and(|theirs| *theirs == ours);
        let row = self.row(function);
        row.calls += 1;
        if same {
            return;
        }
        row.differences += 1;
        if self.first.is_none() {
            let theirs = theirs.map_or("it stops".into(), |theirs| format!("{theirs:?}"));
            self.first =
                Some(format!("{}: {function} of {given:?}\n  the Rust: {theirs}\n  here: {ours:?}", self.module));
        }
    }

    fn row(&mut self, function: &'static str) -> &mut Row {
        let at = self.rows.iter().position(|row| row.function == function).unwrap_or_else(|| {
            self.rows.push(Row { function, calls: 0, differences: 0 });
            self.rows.len() - 1
        });
        &mut self.rows[at]
    }

    pub fn print_module(&mut self) {
        for row in &self.rows {
            println!("| {} | `{}` | {} | {} |", self.module, row.function, row.calls, row.differences);
            self.calls += row.calls;
            self.differences += row.differences;
        }
    }

    /// Whether no call differs.
    pub fn print_total(&self) -> bool {
        println!("| | all | {} | {} |", self.calls, self.differences);
        if let Some(first) = &self.first {
            println!("\nThe first call that differs: {first}");
        }
        self.first.is_none()
    }
}
