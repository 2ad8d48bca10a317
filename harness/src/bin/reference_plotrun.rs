//! The reference's own batch program: reads standard input, prints what plotrun should print.

use std::io::{Read, Write};

fn main() -> std::io::Result<()> {
    let mut file = Vec::new();
    std::io::stdin().read_to_end(&mut file)?;
    std::io::stdout().write_all(harness::reference::plotrun(&file).as_bytes())
}
