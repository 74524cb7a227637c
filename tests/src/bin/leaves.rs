//! Reads a drawing in words on standard input and prints what the leaf lister must print of it, by the second implementation.

use std::io::{self, Read};

use zones_tests::lister;
use zones_tools::words::{self, Ranges};

fn main() -> Result<(), String> {
    let mut text = String::new();
    let read = io::stdin().read_to_string(&mut text);
    read.map_err(|error| error.to_string())?;
    let words = words::parse(&text, Ranges::Records).map_err(|mistake| mistake.to_string())?;
    print!("{}", lister::list(&words.records.concat()));
    Ok(())
}
