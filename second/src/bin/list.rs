//! list GRAMMAR EVENTS: lists the readings of a record, as the specification's program does.

use second::listing;
use std::io::{stdout, Write};
use std::{env, fs};

fn main() -> std::io::Result<()> {
    let mut paths = env::args_os().skip(1);
    let mut file = || fs::read(paths.next()?).ok();
    let (grammar, events) = (file(), file());
    let output = listing::output(grammar.as_deref(), events.as_deref());
    stdout().write_all(output.as_bytes())
}
