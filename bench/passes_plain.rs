// The baseline of bench/passes.sh: built with the modules of a plain Rust runner of assembly texts, which has the passes too. `F LIST..`
// writes for each list of names, joined by +, what these passes in turn make of the text in the file F: a line with the number of changes
// of each and the length of the text to which they lead, and that text.
#![allow(dead_code)]
mod code;
mod passes;
mod text;

use code::Code;
use std::io::Write;

// The readings of the grammar that the modules ask for.
pub struct Readings {
    pub incdef_index_ok: bool,
    pub first_label_word: bool,
}

pub fn readings() -> Readings {
    Readings { incdef_index_ok: false, first_label_word: false }
}

type Pass = fn(Code) -> (Code, u64);

fn named(name: &str) -> Pass {
    match name {
        "chain" => passes::jump_chain,
        "next" => passes::next_jump,
        "dead" => passes::dead_tail,
        "test" => passes::needless_test,
        _ => panic!("no pass: {name}"),
    }
}

fn main() {
    let mut words = std::env::args().skip(1);
    let name = words.next().expect("a file");
    let bytes = std::fs::read(name).expect("a text");
    let first = match text::read_code(&bytes) {
        Ok(code) => code,
        Err(_) => panic!("no text"),
    };
    let mut out = std::io::stdout().lock();
    for list in words {
        let mut code = first.clone();
        let mut counts = String::new();
        for name in list.split('+') {
            let (next, changes) = named(name)(code);
            code = next;
            counts += &format!("{changes} ");
        }
        let text = text::write_code(&code);
        writeln!(out, "{counts}{}", text.len()).expect("a line");
        out.write_all(&text).expect("a text");
    }
}
