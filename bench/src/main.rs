//! One table, in Markdown: the proved code and Rust without proof on the same work, in one run, side by side. It takes
//! about five minutes, and means something only where nothing else runs.

mod conditions;
mod everyday;
mod plain;
mod plain_build;
mod program;
mod signed;
mod texts;
mod turns;

fn main() {
    match std::env::args().nth(1).as_deref() {
        Some(program::PLAIN) => program::plain_program(program::Printer::Digits),
        Some(program::FORMATTED) => program::plain_program(program::Printer::Formatted),
        _ => {
            turns::head();
            texts::lines();
            conditions::lines();
            program::lines();
        }
    }
}
