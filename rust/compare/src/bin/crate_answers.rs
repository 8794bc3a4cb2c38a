//! crate_answers: reads a call a line from standard input and answers each with crate openjp2's own code; src/answers.rs says how.
//! It needs the crate's sources when it is built: OPENJP2_SRC names their src folder.

#[cfg(openjp2)]
fn main() -> std::io::Result<()> {
    use std::io::{BufRead, Write};
    // A panic is an answer.
    std::panic::set_hook(Box::new(|_| {}));
    let mut answers = compare::answers::Answers::default();
    let mut out = std::io::stdout().lock();
    for line in std::io::stdin().lock().lines() {
        writeln!(out, "{}", answers.answer(&line?))?;
        out.flush()?;
    }
    Ok(())
}

#[cfg(not(openjp2))]
fn main() {
    eprintln!("crate_answers was built without crate openjp2's sources: set OPENJP2_SRC to their src folder and build it again");
    std::process::exit(2);
}
