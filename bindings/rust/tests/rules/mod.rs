//! Rules by their shapes, in a short spelling: `/` ends a line, a blank parts fields. The tests share them with tests/bench.
#![allow(dead_code)]

/// The rule text of a short spelling.
pub fn lines(short: &str) -> Vec<u8> {
    let line = |line: &str| line.trim().replace(' ', "\t") + "\n";
    short.split('/').map(line).collect::<String>().into_bytes()
}

/// The same line so many times before a rule.
pub fn under(line: &str, count: usize, rule: &str) -> String {
    format!("{line} / ").repeat(count) + rule
}

pub fn balanced(join: &str, parts: &[String]) -> String {
    match parts {
        [part] => part.clone(),
        _ => {
            let (left, right) = parts.split_at(parts.len() / 2);
            format!("{join} / {} / {}", balanced(join, left), balanced(join, right))
        }
    }
}

pub fn to_the_right(join: &str, parts: &[String]) -> String {
    let before_last: String = parts[..parts.len() - 1].iter().map(|part| format!("{join} / {part} / ")).collect();
    before_last + &parts[parts.len() - 1]
}

pub fn to_the_left(join: &str, parts: &[String]) -> String {
    under(join, parts.len() - 1, &parts.join(" / "))
}

pub fn numbered(stem: &str, count: usize) -> Vec<String> {
    (0..count).map(|at| format!("{stem}{at}")).collect()
}

/// Names that differ in the last three bytes only: of 24 bytes, or with some left for backticks.
pub fn alike(count: usize, ticks: usize) -> Vec<String> {
    (0..count).map(|at| format!("{}{at:03}", "v".repeat(21 - ticks))).collect()
}

pub fn atom(name: &str, variables: &[String]) -> String {
    let terms: String = variables.iter().map(|variable| format!(" / var {variable}")).collect();
    format!("pred {name} {}{terms}", variables.len())
}

/// A0, A1, ..
pub fn plain_atoms(count: usize) -> Vec<String> {
    numbered("A", count).iter().map(|name| atom(name, &[])).collect()
}

/// Atoms with names that are alike, the last name first.
pub fn atoms(count: usize) -> Vec<String> {
    alike(count, 0).iter().rev().map(|name| atom(name, &[])).collect()
}

/// A0 iff (A1 iff ...).
pub fn iff_chain(count: usize) -> String {
    to_the_right("iff", &plain_atoms(count))
}

/// So many pairs; 8 give 256 clauses of 8 literals.
pub fn pairs(outer: &str, inner: &str, count: usize) -> String {
    let pair = |at: usize| format!("{inner} / pred a{at} 0 / pred b{at} 0");
    to_the_right(outer, &(0..count).map(pair).collect::<Vec<_>>())
}

/// Ten groups side by side, each of 32 blocks of one variable before an atom of them all.
pub fn colliding(block: &str) -> String {
    let names = alike(32, 9);
    let blocks: String = names.iter().map(|name| format!("{block} {name} / ")).collect();
    balanced("and", &vec![blocks + &atom("P", &names); 10])
}

/// Blocks of so many names, one in the other, over atoms that use them all.
pub fn nested(block: &str, count: usize, each: usize) -> String {
    let names = alike(count * each, 0);
    let blocks: String = names.chunks(each).map(|names| format!("{block} {} / ", names.join(" "))).collect();
    let used: Vec<String> = names.chunks(29).map(|used| atom("P", used)).collect();
    blocks + &balanced("and", &used)
}

/// So many blocks of the same names, one in the other, over as many atoms of them all as there is room for. The names have 24 bytes and differ
/// in the middle only.
pub fn rebinding(block: &str, count: usize, each: usize) -> String {
    let names: Vec<String> = (0..each).map(|at| format!("{}{at:03}{}", "v".repeat(11), "v".repeat(10))).collect();
    let blocks = format!("{block} {} / ", names.join(" ")).repeat(count);
    let room = 1024 - count * (each + 1);
    blocks + &balanced("and", &vec![atom("P", &names); (room + 1) / (each + 2)])
}

/// 204 blocks side by side, each of its own name.
pub fn side_by_side(block: &str) -> String {
    let group = |name: &String| format!("{block} {name} / {}", atom("P", &[name.clone()]));
    balanced("and", &alike(204, 0).iter().map(group).collect::<Vec<_>>())
}

/// 31 forall blocks and 31 exists blocks in turn: functions of one argument to 31.
pub fn in_turn() -> String {
    let blocks: String = (0..31).map(|at| format!("all x{at} / ex y{at} / ")).collect();
    blocks + &atom("P", &numbered("y", 31))
}

/// 512 atoms under a not: the greatest weight.
pub fn heavy() -> String {
    under("not", 1, &balanced("and", &vec![atom("P", &[]); 512]))
}

/// 341 negated atoms under a not: about the greatest weight of a negation form.
pub fn heavy_negated() -> String {
    under("not", 1, &balanced("or", &vec![under("not", 1, &atom("P", &[])); 341]))
}

/// Forall over so many variables before an existential; all are used.
pub fn before_existential(count: usize) -> String {
    let names = numbered("x", count);
    let blocks: String = names.chunks(32).map(|block| format!("all {} / ", block.join(" "))).collect();
    let mut parts: Vec<String> = names.chunks(32).map(|used| atom("P", used)).collect();
    parts.push(atom("Q", &["y".to_string()]));
    format!("{blocks}ex y / {}", to_the_right("and", &parts))
}
