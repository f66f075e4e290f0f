//! The rules of document 01's "Pairs at the edges", with those of its examples.
use super::make::{all, borrowed, ex, not, numbered, on, propositions, to_the_right};
use razor_fol::syntax::FOF;

/// P() under `count` nots.
pub fn under_nots(count: usize) -> FOF {
    (0..count).fold(on("P", &[]), |inner, _| not(inner))
}

/// A1 ⇔ (A2 ⇔ ...).
pub fn iff_chain(atoms: usize) -> FOF {
    to_the_right(FOF::iff, propositions("A", atoms))
}

/// ∀ of `count` variables, all used, before an existential; a block holds 32 at most.
pub fn before_existential(count: usize) -> FOF {
    let names = numbered("x", count);
    let (first, second) = names.split_at(count.min(32));
    let mut used = on("P", &borrowed(first)).and(on("Q", &["y"]));
    if !second.is_empty() {
        used = used.and(on("R", &borrowed(second)));
    }
    let body = ex(&["y"], used);
    let body = if second.is_empty() { body } else { all(&borrowed(second), body) };
    all(&borrowed(first), body)
}

/// Q(v) → ∃ v. P(v), where v must take a backtick.
pub fn renamed(variable: &str) -> FOF {
    on("Q", &[variable]).implies(ex(&[variable], on("P", &[variable])))
}

/// A variable of this many bytes.
pub fn variable_of(bytes: usize) -> String {
    format!("v{}", "n".repeat(bytes - 1))
}

pub fn rules() -> Vec<(String, FOF)> {
    let iff = || on("P", &["x"]).iff(on("Q", &["y"]));
    let named = [
        ("implied_existential", on("Q", &["x", "y"]).implies(ex(&["x", "y"], on("P", &["x", "y"])))),
        ("name_taken_too", on("R", &["x", "x`"]).and(ex(&["x"], on("Q", &["x"])))),
        ("all_beside_ex", all(&["x"], on("P", &["x"])).and(ex(&["x"], on("Q", &["x"])))),
        ("negated_iff", not(iff())),
        ("iff", iff()),
        ("rebound", all(&["x"], ex(&["y"], all(&["x"], on("P", &["x", "y"]))))),
        ("block_order", ex(&["z", "y"], on("R", &["y", "z"]))),
        ("twice_in_block", ex(&["x", "x"], on("P", &["x"]))),
        ("top", FOF::Top),
        ("bottom", FOF::Bottom),
        ("one_existential", ex(&["y"], on("P", &["x", "y"]))),
        ("name_made_twice", all(&["x"], on("P", &["x"])).and(on("Q", &["x"])).and(on("R", &["x`"]))),
    ];
    let mut rules: Vec<(String, FOF)> = named.into_iter().map(|(label, tree)| (label.to_string(), tree)).collect();
    rules.extend([63, 64].map(|count| (format!("nots_{count}"), under_nots(count))));
    rules.extend([8, 9].map(|atoms| (format!("iff_chain_{atoms}"), iff_chain(atoms))));
    rules.extend([32, 33].map(|count| (format!("universals_{count}"), before_existential(count))));
    rules.extend([23, 24].map(|bytes| (format!("variable_{bytes}"), renamed(&variable_of(bytes)))));
    rules
}
