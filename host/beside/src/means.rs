//! Geometric means of the bench's ratios, by k and by kind of table.

use std::fmt::{Display, Formatter, Result as Written};

/// The library's time by the Rust's, and by that of the older archive where one is timed.
type Ratios = (f64, Option<f64>);

struct Row {
    k: usize,
    kind: &'static str,
    name: String,
    ratios: Ratios,
}

#[derive(Default)]
pub struct Means(Vec<Row>);

impl Means {
    pub fn add(&mut self, k: usize, kind: &'static str, name: &str, ratios: Ratios) {
        self.0.push(Row {
            k,
            kind,
            name: String::from(name),
            ratios,
        });
    }

    fn line(&self, out: &mut Formatter<'_>, title: &str, wanted: impl Fn(&Row) -> bool) -> Written {
        let rows: Vec<&Row> = self.0.iter().filter(|row| wanted(row)).collect();
        let to_rust: Vec<f64> = rows.iter().map(|row| row.ratios.0).collect();
        write!(out, "| {title} | {} | {:.3} |", rows.len(), mean(&to_rust))?;
        let to_old: Vec<f64> = rows.iter().filter_map(|row| row.ratios.1).collect();
        if !to_old.is_empty() {
            write!(out, " {:.3} | {:.3} |", mean(&to_old), highest(&to_old))?;
        }
        writeln!(out)
    }

    /// The polishing row that is slowest beside the older archive.
    fn slowest(&self) -> Option<(&str, f64)> {
        let rows = self
            .0
            .iter()
            .filter_map(|row| Some((row.name.as_str(), row.ratios.1?)));
        rows.max_by(|one, other| one.1.total_cmp(&other.1))
    }
}

pub fn mean(ratios: &[f64]) -> f64 {
    let logarithms: f64 = ratios.iter().map(|ratio| ratio.ln()).sum();
    (logarithms / ratios.len() as f64).exp()
}

pub fn highest(ratios: &[f64]) -> f64 {
    ratios.iter().copied().fold(0.0, f64::max)
}

impl Display for Means {
    fn fmt(&self, out: &mut Formatter<'_>) -> Written {
        let slowest = self.slowest();
        let (columns, lines) = match slowest {
            Some(_) => (" new / old | highest new / old |", "---|---|"),
            None => ("", ""),
        };
        writeln!(out, "Polishing, geometric means\n\n| | rows | library / Rust |{columns}\n|---|---|---|{lines}")?;
        for k in 2..=5 {
            self.line(out, &format!("k = {k}"), |row| row.k == k)?;
        }
        let mut kinds: Vec<&str> = Vec::new();
        for row in &self.0 {
            if !kinds.contains(&row.kind) {
                kinds.push(row.kind);
            }
        }
        for kind in kinds {
            self.line(out, kind, |row| row.kind == kind)?;
        }
        self.line(out, "all", |_| true)?;
        match slowest {
            Some((name, ratio)) => write!(
                out,
                "\nThe row with the highest new / old: {name}, {ratio:.3}"
            ),
            None => Ok(()),
        }
    }
}
