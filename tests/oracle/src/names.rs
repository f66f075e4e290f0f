//! Which spellings are names, by document 01's "Rule text".
use crate::limits::NAME;

fn is_start(byte: u8) -> bool {
    byte.is_ascii_alphabetic() || byte == b'_'
}

fn is_further(byte: u8) -> bool {
    is_start(byte) || byte.is_ascii_digit()
}

// A name whose bytes after the first are all `further`.
fn is_name(name: &[u8], further: fn(u8) -> bool) -> bool {
    name.len() <= NAME && name.first().is_some_and(|&first| is_start(first)) && name.iter().all(|&byte| further(byte))
}

/// A predicate, or the label of a rule.
pub fn is_plain(name: &[u8]) -> bool {
    is_name(name, is_further)
}

/// A constant or a function: `#` may stand anywhere but first.
pub fn is_symbol(name: &[u8]) -> bool {
    is_name(name, |byte| is_further(byte) || byte == b'#')
}

/// A variable: backticks may stand at its end, counted in its length.
pub fn is_variable(name: &[u8]) -> bool {
    let stem = name.iter().rposition(|&byte| byte != b'`').map_or(0, |last| last + 1);
    name.len() <= NAME && is_plain(&name[..stem])
}

/// A name that Skolem symbols may take, so that a rule must not bring it along.
pub fn is_reserved(name: &str) -> bool {
    name.contains('#')
}
