//! Damaged rule texts: each way to be malformed or too large, at its line, and random edits of good texts.
use super::chance::Chance;
use super::limits::vacuous;
use super::make::pred;
use super::pairs::variable_of;
use super::Rule;
use oracle::limits::{DEPTH, LINE, WEIGHT};
use oracle::writer;
use razor_fol::syntax::FOF;

const FORMULA_LINES: [&str; 57] = [
    "",
    "Top",
    "top\t",
    "\ttop",
    " top",
    "top ",
    "top\r",
    "tops",
    "not\tx",
    "and\t",
    "iff\t2",
    "eq\t2",
    "all",
    "all\t",
    "ex\t\tx",
    "all\tx\t",
    "ex\tx y",
    "all\t1x",
    "all\tx`y",
    "all\t`",
    "all\t`x",
    "ex\tx#",
    "all\tx\t0",
    "pred",
    "pred\tP",
    "pred\tP\t",
    "pred\tP\t33",
    "pred\tP\t00",
    "pred\tP\t01",
    "pred\tP\t+1",
    "pred\tP\t-1",
    "pred\tP\t1\t",
    "pred\tP\t1x",
    "pred\tP\t 1",
    "pred\tP\t18446744073709551616",
    "pred\t\t0",
    "pred\tP#\t0",
    "pred\tP`\t0",
    "pred\t1P\t0",
    "pred P 0",
    "pred\tP\t0\t0",
    "var\tx",
    "con\tc",
    "fun\tf\t0",
    "do\tcnf",
    "rule",
    "rules\ta",
    "refused\t2\t1",
    "clauses\t0",
    "pred\t\u{c4}\t0",
    "to\0p",
    "imp\u{a0}",
    "not\u{b}",
    "pred\tP\t\u{b9}",
    "pos",
    "neg",
    "done\tcnf",
];

const TERM_LINES: [&str; 28] = [
    "",
    "top",
    "pred\tP\t0",
    "eq",
    "not",
    "all\tx",
    "var",
    "var\t",
    "var\tx\t",
    "var\tx#",
    "var\t`",
    "var\tx`y",
    "var\t9",
    "var\tx\ty",
    "con\t#c",
    "con\tc`",
    "con\t",
    "con",
    "con\tc\r",
    "con\tc ",
    "fun\tf",
    "fun\tf\t33",
    "fun\t#f\t0",
    "fun\tf`\t0",
    "fun\tf\t032",
    "fun\tf\t",
    "fun\tf\tx",
    "variable\tx",
];

const GOOD_TEXTS: [&str; 8] = [
    "pred\tP\t1\nvar\tx`\n",
    "pred\tP\t1\nvar\t_``\n",
    "pred\t_\t1\ncon\tc##1\n",
    "pred\tP\t1\nfun\tf#\t0\n",
    "all\tx\tx\ttop\ntop\n",
    "eq\nvar\trule\ncon\tdo\n",
    "ex\tx`\tx``\npred\tx\t0\n",
    "eq\ncon\tx\nfun\tx\t1\nvar\tx\n",
];

const UNFINISHED_TEXTS: [&str; 9] = [
    "",
    "not\n",
    "and\ntop\n",
    "pred\tP\t2\nvar\tx\n",
    "eq\nfun\tf\t1\n",
    "top\ntop\n",
    "top\n\n",
    "pred\tP\t0\nvar\tx\n",
    "not\nbot\nbot\nbad\n",
];

const BAD_LABELS: [&str; 9] = ["", "1a", "a#", "a`", "a\tb", "a\t", " a", "a ", "?"];

// Texts whose last LF is missing: at most one stands in a file, at its end.
const UNENDED_TEXTS: [&str; 6] = ["top", "not\ntop", "not\n", "and\ntop\nto", "not\nnot", "top\nbot"];

fn rule(label: String, text: impl Into<Vec<u8>>) -> Rule {
    Rule { label: label.into(), text: text.into() }
}

fn numbered(stem: &str, texts: impl IntoIterator<Item = Vec<u8>>) -> Vec<Rule> {
    texts.into_iter().enumerate().map(|(number, text)| rule(format!("{stem}_{number}"), text)).collect()
}

// Lines that only their length makes bad, or that are bad at any length.
fn long_lines() -> Vec<Vec<u8>> {
    let name = variable_of(25);
    let ticked = format!("{}``", variable_of(23));
    let many = vec!["x"; 33].join("\t");
    let filler = |bytes: usize| format!("pred\t{}", "P".repeat(bytes - 5));
    let lines = [
        format!("all\t{name}"),
        format!("ex\tx\t{ticked}"),
        format!("pred\t{name}\t0"),
        format!("all\t{many}"),
        filler(LINE),
        filler(LINE + 1),
        filler(40 * LINE),
        format!("top\n{}", filler(LINE + 1)),
        format!("pred\tP\t1\nvar\t{name}"),
        format!("pred\tP\t1\ncon\t{name}"),
        format!("pred\tP\t1\nfun\t{name}\t0"),
    ];
    lines.map(|line| (line + "\n").into_bytes()).into()
}

// Texts in which a limit and a fault meet on one line or on neighbouring ones.
fn both_faults() -> Vec<Vec<u8>> {
    let heavy = writer::tree(&vacuous(WEIGHT as usize + 1));
    let lines: Vec<&str> = heavy.lines().collect();
    let with = |at: usize, line: &str| {
        let mut lines = lines.clone();
        lines[at] = line;
        lines.join("\n") + "\n"
    };
    let last = lines.len() - 1;
    let deep = |end: &str| "not\n".repeat(DEPTH) + end;
    let texts = [
        with(last, "bad"),
        with(last - 1, "bad"),
        with(last, "var\tx"),
        heavy.clone() + "bad\n",
        lines[..last].join("\n") + "\n",
        deep("bad\n"),
        deep("var\tx\n"),
        deep("top\nbad\n"),
        deep(""),
        deep("not\n"),
    ];
    texts.map(String::into_bytes).into()
}

fn fixed() -> Vec<Rule> {
    let formula_line = |line: &&str| [format!("{line}\n"), format!("not\n{line}\n")].map(String::into_bytes);
    let term_line =
        |line: &&str| [format!("pred\tP\t1\n{line}\n"), format!("eq\nvar\tx\n{line}\n")].map(String::into_bytes);
    let mut rules = numbered("formula_line", FORMULA_LINES.iter().flat_map(formula_line));
    rules.extend(numbered("term_line", TERM_LINES.iter().flat_map(term_line)));
    rules.extend(numbered("good", GOOD_TEXTS.map(Into::into)));
    rules.extend(numbered("unfinished", UNFINISHED_TEXTS.map(Into::into)));
    rules.extend(numbered("long_line", long_lines()));
    rules.extend(numbered("both", both_faults()));
    let tree = "top\n";
    rules.extend(BAD_LABELS.map(|label| rule(label.into(), tree)));
    rules.extend([24, 25, LINE - 5, LINE - 4].map(|bytes| rule("r".repeat(bytes), tree)));
    rules.push(Rule { label: vec![0xc3, 0xa4], text: tree.into() });
    rules.push(rule("a#".into(), "bad\nnot\n"));
    rules
}

// One random edit of a text.
fn edited(mut text: Vec<u8>, chance: &mut Chance) -> Vec<u8> {
    const BYTES: &[u8] = b"\t\n`# 019azAZ_\r\0\x80rtP";
    let at = chance.below(text.len());
    match chance.below(5) {
        0 => text[at] = chance.choose(BYTES),
        1 => text.insert(at, chance.choose(BYTES)),
        2 => drop(text.remove(at)),
        kind => {
            let mut lines: Vec<Vec<u8>> = text.split_inclusive(|&byte| byte == b'\n').map(Into::into).collect();
            let at = chance.below(lines.len());
            if kind == 3 {
                lines.remove(at);
            } else {
                let line = chance.choose(&lines);
                lines.insert(at, line);
            }
            text = lines.concat();
        }
    }
    if !text.ends_with(b"\n") {
        text.push(b'\n');
    }
    text
}

fn unended(chance: &mut Chance) -> Rule {
    rule("unended".into(), chance.choose(&UNENDED_TEXTS))
}

/// All fixed damages in order where `count` is as many; else random ones, fixed or edited. The last rule's LF is missing.
pub fn rules(seed: u64, count: usize, mut good: impl FnMut() -> FOF) -> Vec<Rule> {
    let mut chance = Chance::new(seed);
    let mut rules = fixed();
    while rules.len() >= count.max(1) {
        rules.swap_remove(chance.below(rules.len()));
    }
    while rules.len() + 1 < count {
        let text = writer::tree(&good()).into_bytes();
        let text = edited(text, &mut chance);
        rules.push(rule(format!("edited_{}", rules.len()), text));
    }
    if chance.once_in(4) {
        rules.push(Rule::new("ended", &pred("P", vec![])));
    } else {
        rules.push(unended(&mut chance));
    }
    rules
}
