//! An archive that is timed in a process of its own: driver/driver.c, compiled with the archive's header and linked with it.

use crate::cases::{nearby, pairs, polish, run};
use crate::tables::listed;
use std::io::{BufRead, BufReader, Write};
use std::process::{Child, ChildStdin, ChildStdout, Command, Stdio};

pub struct Driver {
    child: Child,
    orders: ChildStdin,
    answers: BufReader<ChildStdout>,
}

/// One turn: nanoseconds a candidate or set, and a number that stands for the reply.
pub struct Turn {
    pub nanoseconds: f64,
    pub reply: u64,
}

impl Driver {
    pub fn start(program: &str) -> Result<Self, String> {
        let child = Command::new(program)
            .stdin(Stdio::piped())
            .stdout(Stdio::piped())
            .spawn();
        let mut child = child.map_err(|fault| format!("{program}: {fault}"))?;
        let orders = child.stdin.take().expect("a pipe");
        let answers = BufReader::new(child.stdout.take().expect("a pipe"));
        Ok(Self {
            child,
            orders,
            answers,
        })
    }

    /// The case that the turns after this are of.
    pub fn load(&mut self, case: &str) -> Result<(), String> {
        let sent = self.orders.write_all(case.as_bytes());
        sent.map_err(|fault| format!("the driver: {fault}"))
    }

    /// Calls until at least so much has been counted.
    pub fn turn(&mut self, least: u64) -> Result<Turn, String> {
        self.load(&format!("turn {least}\n"))?;
        let mut line = String::new();
        let read = self.answers.read_line(&mut line);
        read.map_err(|fault| format!("the driver: {fault}"))?;
        let numbers: Vec<u64> = line
            .split(' ')
            .filter_map(|word| word.trim().parse().ok())
            .collect();
        match numbers[..] {
            [time, counted, reply] => Ok(Turn {
                nanoseconds: time as f64 / counted as f64,
                reply,
            }),
            _ => Err(format!("the driver said {line:?}")),
        }
    }
}

impl Drop for Driver {
    fn drop(&mut self) {
        // It waits for orders: nothing is lost.
        let _ = self.child.kill();
        let _ = self.child.wait();
    }
}

/// A list: its length, then its numbers.
fn counted<T: ToString>(numbers: &[T]) -> String {
    format!("{} {}\n", numbers.len(), listed(numbers).replace(',', " "))
}

fn tables(k: usize, allowance: u64, tables: &crate::tables::Tables) -> String {
    let lists = [&tables.legs, &tables.latest, &tables.service].map(|list| counted(list));
    format!("{k} {allowance} {}\n{}", tables.locations, lists.concat())
}

pub fn polish(case: &polish::Case) -> String {
    format!("polish {}", one_round(case))
}

pub fn pairs(case: &pairs::Case) -> String {
    format!("pairs {}", one_round(case.asked()))
}

fn one_round(case: &polish::Case) -> String {
    let tables = tables(case.k, case.allowance, &case.tables);
    format!("{tables}{}\n{}", case.depot, counted(&case.route))
}

pub fn run(case: &run::Case) -> String {
    let tables = tables(case.k, case.allowance, &case.tables);
    let lists = [
        counted(&case.stops),
        counted(&case.lengths),
        counted(&case.depots),
        counted(&case.pins),
    ];
    format!("run {tables}{}", lists.concat())
}

pub fn nearby(case: &nearby::Case) -> String {
    format!("nearby {}", listing(case))
}

/// The same case, asked for every nearby cut set.
pub fn every(case: &nearby::Case) -> String {
    format!("every {}", listing(case))
}

fn listing(case: &nearby::Case) -> String {
    let bits: Vec<u64> = case
        .distances
        .iter()
        .map(|distance| distance.to_bits())
        .collect();
    format!(
        "{}\n{}{} {} {} {}\n",
        case.n,
        counted(&bits),
        case.k,
        case.min_segment_len,
        case.max_nearby,
        case.sets_room
    )
}
