// The baseline of bench/lower.sh: built with the modules of a plain Rust lowering. `generate SEED N` writes a table of N programs,
// `show TABLE` the trees of each program of a table, and `TABLE count N` lowers each N times.
#![allow(dead_code)]
mod gen;
mod lower;
mod meaning;
mod syntax;
mod tokens;
mod trees;
mod typed;

use std::io::Write;

fn program(source: &str) -> typed::Program {
    let options = typed::Opts { memory: true, declare_first: false };
    let list = tokens::tokens(source.as_bytes()).ok().expect("tokens");
    let unit = syntax::parse(&list).ok().expect("phrases");
    typed::check(&unit, options).ok().expect("types")
}

/// Of each three programs two are free to trap, to be wild and to go on forever; of each two one may have memory locals.
fn generate(seed: u64, count: u64) -> String {
    let mut table = String::new();
    for turn in seed..seed + count {
        let made = gen::program(turn, 20, turn % 3 != 0, turn % 2 != 0);
        table.push_str(&format!("# {turn}\n"));
        for line in made.lines().filter(|line| !line.is_empty()) {
            table.push_str(line);
            table.push('\n');
        }
        table.push('\n');
    }
    table.trim_end().to_string() + "\n"
}

fn show(source: &str) -> String {
    let typed = program(source);
    let mut text = String::new();
    for (routine, function) in typed.funcs.iter().zip(&lower::lower(&typed).functions) {
        let (name, args, locals) = (&function.name, function.args, function.locals);
        let (need, automatic) = (routine.need, routine.locs + routine.has_mem as u32);
        text.push_str(&format!("function {name} args {args} locals {locals} need {need} automatic {automatic}\n"));
        for item in &function.items {
            match item {
                trees::Item::Label(label) => text.push_str(&format!("L{label}:\n")),
                trees::Item::Root(leaves) => text.push_str(&format!("{}\n", trees::show_full(&leaves[..leaves.len() - 1]))),
            }
        }
    }
    text
}

fn count(source: &str, rounds: u32) -> String {
    let typed = program(source);
    let mut items = 0;
    for _ in 0..rounds {
        items = lower::lower(&typed).functions.iter().map(|function| function.items.len()).sum();
    }
    format!("{items} items\n")
}

/// The source of each block: its lines but those that begin with `#`.
fn sources(name: &str) -> Vec<String> {
    let text = std::fs::read_to_string(name).expect("a table");
    let lines = |block: &str| block.lines().filter(|line| !line.starts_with('#')).map(|line| line.to_string() + "\n").collect();
    text.split("\n\n").map(lines).collect()
}

fn answer() {
    let words: Vec<String> = std::env::args().skip(1).collect();
    let words: Vec<&str> = words.iter().map(String::as_str).collect();
    let text = match words.as_slice() {
        ["generate", seed, n] => generate(seed.parse().unwrap(), n.parse().unwrap()),
        ["show", name] => sources(name).iter().map(|source| show(source) + "\n").collect(),
        [name, "count", rounds] => sources(name).iter().map(|source| count(source, rounds.parse().unwrap())).collect(),
        _ => panic!("words"),
    };
    std::io::stdout().write_all(text.as_bytes()).unwrap();
}

fn main() {
    let deep = std::thread::Builder::new().stack_size(1 << 30).spawn(answer).unwrap();
    deep.join().unwrap();
}
