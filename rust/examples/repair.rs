//! Repairs standard input to standard output, and prints the number of malformed sequences to standard error.
use std::io;

fn main() -> io::Result<()> {
    let mut text = encoding_text::Repair::new(io::stdin().lock());
    io::copy(&mut text, &mut io::stdout().lock())?;
    eprintln!("{} malformed sequences", text.replaced());
    Ok(())
}
