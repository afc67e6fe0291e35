// The baseline of bench/check.sh and bench/show.sh: built with the modules of a plain Rust reader of machine descriptions. `check F` does
// for the description in the file F what `ggvax check` does, `replay F SAMPLE` parses a sample that `ggvax check` told, and `show F` tells
// of the lines that save and reload and of each rule the effect, the fault, or both effects.
#![allow(dead_code)]
mod check;
mod desc;
mod expand;
mod lr;
mod select;
mod term;
mod tok;

use check::{Engine, FK};
use desc::{Desc, Kind, Line, Piece, Rule};
use lr::{Outcome, SNode, Tables};
use term::{Act, Effect, Env, Term, TK};

const STATES: usize = 4096;
const TUPLES: usize = 4_000_000;

fn read(name: &str) -> Desc {
    match desc::read(&std::fs::read_to_string(name).expect("a description"), "vax") {
        Ok(description) => description,
        Err((line, kind)) => stop(&format!("description line {line}: {kind:?}")),
    }
}

fn stop(line: &str) -> ! {
    println!("{line}");
    std::process::exit(0)
}

fn tables(description: Desc) -> Tables {
    match Tables::build(description, STATES) {
        Ok(tables) => tables,
        Err(_) => stop("too many item sets"),
    }
}

/// The number of tuples, and whether some tree blocks and some tree loops; where none does, the rules.
fn check(name: &str) {
    let tables = tables(read(name));
    let mut engine = Engine::new(&tables, false, TUPLES);
    engine.run();
    if engine.capped {
        stop("too many tuples");
    }
    println!("{} item sets, {} tuples", tables.states(), engine.tuples.len());
    let loops = engine.forder.iter().any(|fault| fault.0 == FK::Loops);
    let blocks = engine.forder.iter().any(|fault| fault.0 != FK::Loops);
    if blocks || loops {
        stop(&format!("refused{}{}", if blocks { " blocks" } else { "" }, if loops { " loops" } else { "" }));
    }
    println!("accepted");
    if let Some(line) = first_refusal(&tables.d) {
        println!("{line}");
    }
}

/// A node a line: its number, its token, its kids' numbers, and a word of answers where it has some.
fn sample(name: &str) -> Vec<SNode> {
    let node = |line: &str| {
        let words: Vec<&str> = line.split_whitespace().collect();
        let (kids, answers): (Vec<&str>, Vec<&str>) = words[2..].iter().partition(|word| word.starts_with(|c: char| c.is_ascii_digit()));
        SNode {
            tok: tok::find(words[1]).expect("a token"),
            kids: kids.iter().map(|kid| kid.parse().expect("a kid")).collect(),
            ans: answers.concat().chars().map(|answer| answer == 'y').collect(),
        }
    };
    std::fs::read_to_string(name).expect("a sample").lines().map(node).collect()
}

fn replay(name: &str, of: &str) {
    match lr::replay(&tables(read(name)), &sample(of), false) {
        Outcome::Done => println!("accepts"),
        Outcome::Blocks(at) => println!("blocks at {at}"),
        Outcome::Loops(at) => println!("loops at {at}"),
        Outcome::Long => println!("the tree is too long"),
    }
}

/// The wanted and the found effect in normal form, or the fault.
type Judged = Result<(Effect, Effect), (u32, TK)>;

fn judged_line(description: &Desc, kind: Kind, line: &Line) -> Judged {
    let size = |symbol: u8| match kind {
        Kind::Value(size) if symbol == 1 => Some(size),
        _ => None,
    };
    let known = Env { size: &size, range: &|_| false };
    let act = match kind {
        Kind::Reg => Act::Value(Term::V(1)),
        Kind::Value(size) => Act::StoreHome(size, 0, Term::V(1)),
        _ => Act::StoreHome(desc::Size::L, 0, Term::V(1)),
    };
    let normal = |effect: &Effect| effect.map(&|t| term::norm(t, &known), &|symbol| symbol);
    let found = term::spill_effect(description, kind, line)?;
    Ok((normal(&Effect { act, div: vec![] }), normal(&found)))
}

/// Whether a line does something else than compare or write the register `%0`.
fn does_more(line: &Line) -> bool {
    let compares = matches!(&line.mnem[..], [Piece::Bytes(name)] if ["cmp", "tst", "bit"].iter().any(|head| name.starts_with(head)));
    let writes_zero = match &line.ops[..] {
        [Piece::Hole(0)] => true,
        [.., Piece::Bytes(before), Piece::Hole(0)] => before.ends_with(','),
        _ => false,
    };
    !compares && !writes_zero
}

/// The plain program looks at sizes and order first; a line that does more than a value's rule may do is no instruction there, and of the
/// faults of one line that goes before.
fn judged_rule(description: &Desc, rule: &Rule) -> Judged {
    let is_value = description.classes[rule.left as usize].kind != Kind::Nothing;
    let found = term::template_effect(description, rule).map_err(|(number, kind)| {
        let more = rule.lines.iter().any(|line| line.line == number && does_more(line));
        (number, if is_value && more { TK::NotInstr } else { kind })
    })?;
    let wanted = term::norm_effect(description, rule, &term::pattern_effect(description, rule));
    Ok((wanted, term::norm_effect(description, rule, &found)))
}

/// What is said of the lines that save and reload, each as rule 0, and of the rules.
fn judged(description: &Desc) -> Vec<(usize, Judged)> {
    let lines = term::spill_kinds().into_iter().zip(&description.spills).map(|(kind, line)| (0, judged_line(description, kind, line)));
    let rules = description.rules.iter().enumerate().map(|(i, rule)| (i + 1, judged_rule(description, rule)));
    lines.chain(rules).collect()
}

fn show(name: &str) {
    for (number, judged) in judged(&read(name)) {
        match judged {
            Err((line, kind)) => println!("rule {number} line {line}: {kind:?}"),
            Ok((wanted, found)) if wanted == found => println!("rule {number}: {}", found.show()),
            Ok((wanted, found)) => println!("rule {number}: {}, but found {}", wanted.show(), found.show()),
        }
    }
}

/// The line, or the lines, by which the first rule is refused.
fn first_refusal(description: &Desc) -> Option<String> {
    let pool = description.pool.count_ones();
    let needs = description.rules.iter().enumerate().map(|(i, rule)| (i + 1, term::need(description, rule)));
    let small = needs.into_iter().find(|need| need.1 > pool).map(|(number, need)| format!("rule {number} needs {need} registers"));
    small.or_else(|| {
        judged(description).into_iter().find_map(|(number, judged)| match judged {
            Err((line, kind)) => Some(format!("rule {number} line {line}: {kind:?}")),
            Ok((wanted, found)) if wanted == found => None,
            Ok((wanted, found)) => Some(format!("rule {number}\nwanted {}\nfound {}", wanted.show(), found.show())),
        })
    })
}

fn main() {
    let words: Vec<String> = std::env::args().skip(1).collect();
    match words.iter().map(String::as_str).collect::<Vec<_>>().as_slice() {
        ["check", name] => check(name),
        ["replay", name, of] => replay(name, of),
        ["show", name] => show(name),
        _ => panic!("words"),
    }
}
