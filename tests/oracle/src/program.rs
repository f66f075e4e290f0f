//! The file program of document 01: an input with its `do` line and rules, and the output for it.
use crate::convert::{convert, Without, NAMES};
use crate::limits::{malformed, Refusal, LINE};
use crate::names::is_plain;
use crate::reader::{lines, read, Line};
use crate::writer::line;

/// The whole output for a whole input.
pub fn output(input: &[u8]) -> String {
    let lines = lines(input);
    let mut out = String::new();
    match conversion(&lines) {
        None => refused(&mut out, malformed(0)),
        Some(conversion) => {
            line(&mut out, &["done", conversion]);
            for rule in rules(&lines[1..]) {
                answer(conversion, rule, &mut out);
            }
        }
    }
    out
}

// The conversion that the first line names, if the file may be read on.
fn conversion(lines: &[Line<'_>]) -> Option<&'static str> {
    let first = lines.first().filter(|first| first.ended && first.bytes.len() <= LINE)?;
    let second_fits = lines.get(1).map_or(true, is_rule_line);
    let name = first.bytes.strip_prefix(b"do\t").filter(|_| second_fits)?;
    NAMES.into_iter().find(|known| known.as_bytes() == name)
}

fn is_rule_line(line: &Line<'_>) -> bool {
    line.bytes.starts_with(b"rule\t")
}

// The lines of each rule, its `rule` line first.
fn rules<'a, 'b>(lines: &'a [Line<'b>]) -> Vec<&'a [Line<'b>]> {
    let starts: Vec<usize> = (0..lines.len()).filter(|&at| is_rule_line(&lines[at])).collect();
    let ends = starts.iter().skip(1).copied().chain([lines.len()]);
    starts.iter().zip(ends).map(|(&start, end)| &lines[start..end]).collect()
}

fn answer(conversion: &str, rule: &[Line<'_>], out: &mut String) {
    let Some(label) = label(&rule[0]) else {
        line(out, &["rule", "?"]);
        return refused(out, malformed(0));
    };
    line(out, &["rule", label]);
    match read(&rule[1..]).map_err(Without::from).and_then(|tree| convert(conversion, &tree)) {
        Ok(text) => out.push_str(&text),
        Err(Without::Refused(refusal)) => refused(out, refusal),
        Err(Without::Slow) => line(out, &["slow"]),
        Err(Without::Panicked) => line(out, &["panic"]),
    }
}

fn label<'a>(line: &Line<'a>) -> Option<&'a str> {
    let name = line.bytes.strip_prefix(b"rule\t").filter(|_| line.ended && line.bytes.len() <= LINE)?;
    std::str::from_utf8(name).ok().filter(|name| is_plain(name.as_bytes()))
}

fn refused(out: &mut String, refusal: Refusal) {
    line(out, &["refused", &refusal.number.to_string(), &refusal.place.to_string()]);
}
