//! The second implementation as the program `signature`: definitions on standard input, their
//! signatures on standard output, or a refusal on standard error.
//!
//! The input is a byte that says whether forms are wanted, one that says how many definitions there
//! are, and then lengths and source as in RULES 17.12.

use reference::dsdl::call::LENGTH_SIZE;
use reference::dsdl::RULES;
use std::io::{self, Read, Write};

fn main() {
    let mut input = Vec::new();
    io::stdin().read_to_end(&mut input).expect("standard input");
    let (forms, count) = (input[0] == 1, usize::from(input[1]));
    let (lengths, source) = input[2..].split_at(count * 2 * LENGTH_SIZE);
    match RULES.answer(source, lengths, usize::MAX, usize::MAX) {
        Err(refusal) if refusal.number == 40 => {
            eprintln!("40 {} {}", refusal.definition, refusal.line);
        }
        Err(refusal) => eprintln!("{}", refusal.number),
        Ok(signed) => {
            let mut text = Vec::new();
            for one in signed {
                let name = one.form.split(|&byte| byte == b'\n').next();
                text.extend(name.expect("the name"));
                text.extend(format!(" 0x{:016X}\n", one.signature).bytes());
                if forms {
                    text.extend(&one.form);
                    text.push(b'\n');
                }
            }
            if io::stdout().write_all(&text).is_err() {
                eprintln!("tecelume: writing failed");
            }
        }
    }
}
