//! The printed table: a line's name, what both sides took, and how many times as fast Rattle is.

use crate::timing::Medians;

/// The unit that a line's numbers are in.
#[derive(Clone, Copy)]
pub enum Unit {
    Event,
    Call,
    Byte,
}

/// The lines printed so far, those with a factor to be printed at the end, and the filter.
pub struct Table {
    filter: String,
    ratios: Vec<(String, f64)>,
    growth: Vec<(String, Medians, Medians)>,
}

impl Table {
    pub fn new(filter: String) -> Table {
        Table { filter, ratios: Vec::new(), growth: Vec::new() }
    }

    /// Whether a line is asked for.
    pub fn wants(&self, name: &str) -> bool {
        name.contains(&self.filter)
    }

    pub fn start(&self) {
        println!("Medians of rounds by turns; the ratio is plain over Rattle in time: above 1 Rattle is faster.");
        println!("{:<36} {:>10} {:>10} {:>10} {:>8}  ", "line", "unit", "Rattle", "plain", "ratio");
    }

    /// Prints a line, with a remark.
    pub fn line(&mut self, name: &str, unit: Unit, taken: Medians, remark: &str) {
        let ratio = taken.ratio;
        let (unit, rattle, plain) = match unit {
            Unit::Event => ("ns/event", taken.rattle, taken.plain),
            Unit::Call => ("ns/call", taken.rattle, taken.plain),
            Unit::Byte => ("GB/s", 1.0 / taken.rattle, 1.0 / taken.plain),
        };
        println!("{name:<36} {unit:>10} {rattle:>10.2} {plain:>10.2} {ratio:>8.2}  {remark}");
        self.ratios.push((name.to_string(), ratio));
    }

    /// Keeps what one event took with 64 and with 65,536 blocks for the end.
    pub fn keep_growth(&mut self, name: String, few: Medians, many: Medians) {
        self.growth.push((name, few, many));
    }

    pub fn end(&self) {
        if !self.growth.is_empty() {
            println!();
            println!("An event at 65,536 blocks over one at 64 blocks, in time");
            println!("{:<36} {:>10} {:>10} {:>10}", "kind", "", "Rattle", "plain");
        }
        for (name, few, many) in &self.growth {
            let (rattle, plain) = (many.rattle / few.rattle, many.plain / few.plain);
            println!("{name:<36} {:>10} {rattle:>10.2} {plain:>10.2}", "");
        }
        println!();
        for kind in ["guided", "uniform", ""] {
            self.summary(kind);
        }
    }

    /// Prints the mean and the least of the ratios of lines of a kind; all lines are of kind "".
    fn summary(&self, kind: &str) {
        let of_kind = self.ratios.iter().filter(|(name, _)| name.contains(kind));
        let ratios: Vec<f64> = of_kind.map(|(_, ratio)| *ratio).collect();
        if ratios.is_empty() {
            return;
        }
        let mean = (ratios.iter().map(|ratio| ratio.ln()).sum::<f64>() / ratios.len() as f64).exp();
        let least = ratios.iter().copied().fold(f64::INFINITY, f64::min);
        let lines = if kind.is_empty() { "lines".to_string() } else { format!("{kind} lines") };
        println!("{} {lines}: ratio {mean:.2} in the geometric mean, {least:.2} at least", ratios.len());
    }
}
