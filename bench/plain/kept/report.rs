//! The report on a script, a line of JSON.

use crate::machine::Machine;
use std::fmt::Write;

/// The last lines of these, in order.
fn last_lines(bytes: &[u8], last: usize) -> Vec<&str> {
    let text = std::str::from_utf8(bytes).unwrap_or("");
    let mut lines: Vec<_> = text.lines().rev().take(last).collect();
    lines.reverse();
    lines
}

/// A report of so many lines on a machine that has run so many events.
pub fn report(machine: &Machine<'_>, events: usize, last: usize) -> String {
    let quoted = |line: &str| format!("\"{}\"", line.replace('\\', "\\\\").replace('"', "\\\""));
    let lines: Vec<_> = last_lines(machine.lines.bytes(), last).into_iter().map(quoted).collect();
    let counts = &machine.counts;
    let mut report = String::new();
    let _ = writeln!(
        report,
        r#"{{"events":{events},"last":[{}],"placed":{},"refused":{},"torn":{},"unplaced":{}}}"#,
        lines.join(","),
        counts.placed,
        counts.refused,
        machine.kernel().is_torn(),
        counts.unplaced,
    );
    report
}
