//! A list of calls and answers: first those that the Rust was run for, then those that document 01 decides alone, then those
//! that are answered by the words of document 02.
use std::collections::{BTreeMap, HashSet};
use std::panic::{AssertUnwindSafe, catch_unwind, set_hook, take_hook};

use utiles_core::Tile;

use crate::paper::{self, COMPARED};
use crate::sample::Xyz;

#[derive(Default)]
pub struct List {
    run: String,
    ruled: String,
    refused: String,
    claimed: String,
    // Of each function: the calls run, ruled, refused and claimed.
    counts: BTreeMap<String, [usize; 4]>,
    builds: usize,
    // How many times the Rust was run for the first bytes of a key that is fed byte by byte.
    pub prefixes: usize,
    seen: HashSet<String>,
    // Calls inside the domain at which the Rust stops, or is otherwise than document 01 or a bitmap says; and answers that
    // come out differently in different ways.
    pub surprises: Vec<String>,
}

impl List {
    /// A call on no tile. The Rust is run for it if document 01 gives it no refusal, and otherwise it is written as refused.
    pub fn call(&mut self, name: &str, args: &[u64], refusal: u64, zeros: usize, rust: impl FnOnce() -> Vec<u64>) {
        if refusal == 0 {
            self.run_rust(name, args, (0, zeros), || Ok(rust()));
        } else {
            self.refuse(name, args, refusal, zeros);
        }
    }

    /// A call on tiles, with its refusal or 0 and how many zeros a refusal answers. `zoom` is the deepest that it names or reaches: where
    /// the Rust is held on it, it is run as above and must answer as the papers' words do. Otherwise these stand alone.
    pub fn both(
        &mut self,
        name: &str,
        args: &[u64],
        (refusal, zeros): (u64, usize),
        zoom: u8,
        rust: impl FnOnce() -> Vec<u64>,
        words: impl FnOnce() -> Vec<u64>,
    ) {
        if refusal == 0 {
            self.compare(name, args, (0, zeros), zoom, || Ok(rust()), words);
        } else {
            self.refuse(name, args, refusal, zeros);
        }
    }

    /// The same, save that where the Rust is held it is run whether the call is refused or not. It must refuse as document 01 does.
    pub fn compare(
        &mut self,
        name: &str,
        args: &[u64],
        (refusal, zeros): (u64, usize),
        zoom: u8,
        rust: impl FnOnce() -> Result<Vec<u64>, u64>,
        words: impl FnOnce() -> Vec<u64>,
    ) {
        if zoom <= COMPARED {
            let answer = self.run_rust(name, args, (refusal, zeros), rust);
            if refusal == 0 && answer.is_some_and(|answer| answer != words()) {
                self.surprises
                    .push(format!("the Rust answers otherwise than the papers' words: {name}{}", spaced(args)));
            }
        } else if refusal == 0 {
            self.claim(name, args, &words());
        } else {
            self.refuse(name, args, refusal, zeros);
        }
    }

    // Runs the Rust, which must refuse as document 01 does. Gives what it answers, unless the list has the call or the Rust stops.
    fn run_rust(
        &mut self,
        name: &str,
        args: &[u64],
        (refusal, zeros): (u64, usize),
        rust: impl FnOnce() -> Result<Vec<u64>, u64>,
    ) -> Option<Vec<u64>> {
        let call = self.first(name, args)?;
        let Ok(answer) = caught(rust) else {
            self.surprises.push(format!("the Rust stops: {call}"));
            return None;
        };
        let number = answer.as_ref().err().copied().unwrap_or(0);
        if number != refusal {
            self.surprises.push(format!("the Rust says {number}, document 01 {refusal}: {call}"));
        }
        let values = answer.unwrap_or(vec![0; zeros]);
        self.run += &line(&call, number, &values);
        self.counts.entry(name.to_string()).or_default()[0] += 1;
        Some(values)
    }

    /// A call that document 01 answers otherwise than the Rust, or that the Rust cannot be given.
    pub fn rule(&mut self, name: &str, args: &[u64], values: &[u64]) {
        let Some(call) = self.first(name, args) else { return };
        self.ruled += &line(&call, 0, values);
        self.counts.entry(name.to_string()).or_default()[1] += 1;
    }

    pub fn refuse(&mut self, name: &str, args: &[u64], refusal: u64, zeros: usize) {
        let Some(call) = self.first(name, args) else { return };
        self.refused += &line(&call, refusal, &vec![0; zeros]);
        self.counts.entry(name.to_string()).or_default()[2] += 1;
    }

    /// A call that document 02 answers or claims something of, with the answer by its words.
    pub fn claim(&mut self, name: &str, args: &[u64], values: &[u64]) {
        self.tell(name, args, 0, values);
    }

    /// The same, refused or not, and with the values that the refusal has: a refused feed hands its reader back.
    pub fn tell(&mut self, name: &str, args: &[u64], refusal: u64, values: &[u64]) {
        let Some(call) = self.first(name, args) else { return };
        self.claimed += &line(&call, refusal, values);
        self.counts.entry(name.to_string()).or_default()[3] += 1;
    }

    /// The line that a build starts with. It is no call, and has no answer.
    pub fn begin(&mut self) {
        self.ruled += "build =\n";
        self.builds += 1;
    }

    /// A call of a build, which stands behind the calls before it, whether it is refused or not, and as often as it is made.
    pub fn play(&mut self, name: &str, args: &[u64], refusal: u64, values: &[u64]) {
        self.ruled += &line(&format!("{name}{}", spaced(args)), refusal, values);
        self.counts.entry(name.to_string()).or_default()[if refusal == 0 { 1 } else { 2 }] += 1;
    }

    // The call's text, unless the list has the call.
    fn first(&mut self, name: &str, args: &[u64]) -> Option<String> {
        let call = format!("{name}{}", spaced(args));
        self.seen.insert(call.clone()).then_some(call)
    }

    pub fn text(&self) -> String {
        let mut text = self.run.clone();
        if !self.ruled.is_empty() {
            text += &format!("# answers by document 01, not run\n{}", self.ruled);
        }
        if !self.refused.is_empty() {
            text += &format!("# refusals by document 01, not run\n{}", self.refused);
        }
        if !self.claimed.is_empty() {
            text += &format!("# answers by document 02\n{}", self.claimed);
        }
        text
    }

    pub fn calls(&self) -> usize {
        self.counts.values().flatten().sum()
    }

    pub fn print_counts(&self) {
        for (name, [run, ruled, refused, claimed]) in &self.counts {
            if run + ruled + refused > 0 {
                println!("    {name}: {run} run, {ruled} answers and {refused} refusals by document 01");
            }
            if *claimed > 0 {
                println!("    {name}: {claimed} answers by document 02");
            }
        }
        if self.builds > 0 {
            println!("    in {} builds", self.builds);
        }
        if self.prefixes > 0 {
            println!("    the Rust was run {} times for the bytes so far", self.prefixes);
        }
    }
}

/// What a call of the Rust gives, or the stop that it ends in, without the message that a stop prints.
pub fn caught<T>(call: impl FnOnce() -> T) -> std::thread::Result<T> {
    let hook = take_hook();
    set_hook(Box::new(|_| {}));
    let answer = catch_unwind(AssertUnwindSafe(call));
    set_hook(hook);
    answer
}

fn spaced(numbers: &[u64]) -> String {
    numbers.iter().map(|n| format!(" {n}")).collect()
}

fn line(call: &str, number: u64, values: &[u64]) -> String {
    format!("{call} = {number}{}\n", spaced(values))
}

/// The numbers of a tile, as arguments or as a value.
pub fn xyz((x, y, z): Xyz) -> Vec<u64> {
    vec![x.into(), y.into(), z.into()]
}

pub fn of_tile(tile: Tile) -> Vec<u64> {
    xyz((tile.x, tile.y, tile.z))
}

/// A list: its count, then its entries.
pub fn counted(entries: &[u64]) -> Vec<u64> {
    [&[entries.len() as u64], entries].concat()
}

pub fn bytes(entries: &[u8]) -> Vec<u64> {
    counted(&entries.iter().map(|&b| b.into()).collect::<Vec<u64>>())
}

/// A list of tiles holds their entries.
pub fn listed(tiles: &[Xyz]) -> Vec<u64> {
    counted(&tiles.iter().map(|&t| paper::entry(t)).collect::<Vec<u64>>())
}

pub fn of_tiles(tiles: &[Tile]) -> Vec<u64> {
    listed(&tiles.iter().map(|t| (t.x, t.y, t.z)).collect::<Vec<Xyz>>())
}
