//! What the run found: lines of a document, and points for the plot.
use std::fmt::Write;

#[derive(Default)]
pub struct Report {
    pub text: String,
    pub points: String,
    pub targets: String,
}

impl Report {
    pub fn line(&mut self, line: &str) {
        println!("{line}");
        writeln!(self.text, "{line}").expect("a string takes it");
    }

    /// Whether a number is at most its limit.
    pub fn target(&mut self, what: &str, number: f64, most: f64) {
        let verdict = if number <= most { "met" } else { "missed" };
        writeln!(
            self.targets,
            "| {what} | {number:.3} | {most} | {verdict} |"
        )
        .expect("a string takes it");
    }

    /// A point of a curve: a number and microseconds.
    pub fn point(&mut self, curve: &str, x: usize, microseconds: f64) {
        writeln!(self.points, "{curve},{x},{microseconds:.3}").expect("a string takes it");
    }
}
