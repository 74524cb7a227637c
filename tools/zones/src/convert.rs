//! `zones records` and `zones words`: a drawing from words to records and back.

use crate::args::{Args, Flag};
use crate::fault::Fault;
use crate::output;
use crate::source::Source;
use crate::text::grouped;
use crate::words::{self, Ranges};

pub const UNCHECKED: Flag = Flag::plain("--unchecked");

/// The drawing of the first operand, read by the library unless that is not wanted.
fn given(args: &Args) -> Result<Source, Fault> {
    let unchecked = args.has(&UNCHECKED);
    let ranges = match unchecked {
        true => Ranges::Records,
        false => Ranges::Drawing,
    };
    let source = Source::open(args.operand(0), ranges)?;
    if !unchecked {
        source.read()?;
    }
    Ok(source)
}

pub fn records(args: &Args) -> Result<(), Fault> {
    output::bytes(args, &given(args)?.records)
}

pub fn words(args: &Args) -> Result<(), Fault> {
    let source = given(args)?;
    let whole = source.records.len() == source.rows().as_flattened().len();
    let said = match whole {
        true => words::text(source.rows()),
        false => Err(source.rows().len()),
    };
    let text = said.map_err(|record| {
        let record = grouped(record as u64);
        let what = format!("words cannot say record {record}");
        Fault::Refused(format!("{}: {what}", source.name))
    })?;
    output::text(args, &text)
}
