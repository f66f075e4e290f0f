//! The families by name, and what of each a conversion gets.
use super::random::{Random, Shape};
use super::{damage, enumerate, limits, pairs, Rule};
use oracle::shapes;
use razor_fol::syntax::FOF;

pub const NAMES: [&str; 10] =
    ["smallest", "colliding", "varied", "unquantified", "prefixed", "random", "large", "pairs", "limits", "damaged"];

const SMALL: usize = 60;
const LARGE: usize = 1_100;

fn shape(conversion: &str) -> Shape {
    match conversion {
        "pnf-snf" => Shape::Prenex,
        "snf-cnf" | "snf-dnf" => Shape::Skolem,
        _ => Shape::Any,
    }
}

fn clause_form(conversion: &str) -> Option<&str> {
    ["cnf", "dnf"].into_iter().find(|form| conversion.ends_with(form))
}

// Whether names with `#` are ordinary input for the conversion.
fn takes_reserved(conversion: &str) -> bool {
    matches!(conversion, "simplify" | "nnf" | "pnf" | "snf-cnf" | "snf-dnf")
}

fn has_shape(tree: &FOF, shape: Shape) -> bool {
    match shape {
        Shape::Any => true,
        Shape::Prenex => shapes::prenex(tree).is_some(),
        Shape::Skolem => shapes::skolem(tree).is_some(),
    }
}

// Rules without a name of their own: the family's first letters and a number.
fn numbered(family: &str, count: u64, mut tree: impl FnMut(u64) -> FOF) -> Vec<Rule> {
    (0..count).map(|number| Rule::new(&format!("{}{number}", &family[..2]), &tree(number))).collect()
}

// `count` of `total` rules spread over all of them, or all in order.
fn spread(family: &str, seed: u64, count: u64, total: u64, nth: impl Fn(u64) -> FOF) -> Vec<Rule> {
    const STRIDE: u64 = 0x9e37_79b9_7f4a_7c15;
    numbered(family, count.min(total), |number| {
        nth(if count >= total { number } else { seed.wrapping_add(number).wrapping_mul(STRIDE) % total })
    })
}

fn labelled(rules: Vec<(String, FOF)>, count: u64) -> Vec<Rule> {
    rules.into_iter().take(count as usize).map(|(label, tree)| Rule::new(&label, &tree)).collect()
}

/// The rules of a family for a conversion; None where there is no such family.
pub fn rules(family: &str, conversion: &str, seed: u64, count: u64) -> Option<Vec<Rule>> {
    let shape = shape(conversion);
    let mut random = Random::new(seed, shape, takes_reserved(conversion));
    let all_of = |trees: enumerate::Trees| spread(family, seed, count, trees.total(), |index| trees.nth(index));
    let each_of =
        |prefixed: enumerate::Prefixed| spread(family, seed, count, prefixed.total(), |index| prefixed.nth(index));
    Some(match family {
        "smallest" => {
            let trees = enumerate::varied();
            numbered(family, count.min(trees.total()), |number| trees.nth(number))
        }
        "colliding" => all_of(enumerate::colliding()),
        "varied" => all_of(enumerate::varied()),
        "unquantified" if takes_reserved(conversion) => all_of(enumerate::unquantified("c#10", "c#2")),
        "unquantified" => all_of(enumerate::unquantified("c10", "c2")),
        "prefixed" if shape == Shape::Skolem => each_of(enumerate::skolem()),
        "prefixed" => each_of(enumerate::prenex()),
        "random" => numbered(family, count, |_| random.rule(SMALL)),
        "large" => numbered(family, count, |_| random.rule(LARGE)),
        "pairs" => labelled(pairs::rules(), count),
        "limits" => {
            let mut rules = limits::rules(clause_form(conversion));
            rules.retain(|(label, tree)| has_shape(tree, shape) || label.starts_with("reserved"));
            labelled(rules, count)
        }
        "damaged" => damage::rules(seed, count as usize, || random.rule(SMALL)),
        _ => return None,
    })
}
