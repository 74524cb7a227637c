//! `zones draw`: a picture of a drawing.

mod axis;
mod lines;
mod scene;
mod view;

use std::io::{self, Write};
use std::num::NonZero;
use std::thread;

use crate::args::{Args, Flag};
use crate::fault::Fault;
use crate::output;
use crate::png::Writer;
use crate::progress::Progress;
use crate::source::Source;
use crate::tree::Choice;
use crate::words::Ranges;
use lines::Lines;
use scene::{Scene, ROWS};
use view::View;

pub const SIZE: Flag = Flag::valued("--size", "W or WxH");
pub const PART: Flag = Flag::valued("--part", "X,Y,WIDTH,HEIGHT");
pub const CELLS: Flag = Flag::plain("--cells");

pub fn run(args: &Args) -> Result<(), Fault> {
    let view = View::of(args)?;
    let choice = Choice::of(args)?;
    let source = Source::open(args.operand(0), Ranges::Drawing)?;
    let (map, _) = choice.grown(&source)?;
    let lines = args.has(&CELLS).then(|| Lines::of(&map, &view.x, &view.y));
    let scene = Scene::of(map, view, lines);
    let file = args.operand(1);
    let out = output::picture(args, file)?;
    drawn(&scene, view, out).map_err(|fault| match fault {
        Unfinished::Refused(refused) => source.refused(refused),
        Unfinished::Unwritten(error) => output::unwritten(file, &error),
    })
}

/// Why a picture has no end.
enum Unfinished {
    Refused(zones::Refused),
    Unwritten(io::Error),
}

/// Draws the rows from the top on, some by each thread at a time, and writes them.
fn drawn(scene: &Scene, view: View, out: impl Write) -> Result<(), Unfinished> {
    let View { x, y } = view;
    let mut png = Writer::new(out, x.dots, y.dots).map_err(Unfinished::Unwritten)?;
    let mut progress = Progress::of(y.dots.into());
    let threads = thread::available_parallelism().map_or(1, NonZero::get);
    let rows: Vec<u32> = (0..y.dots).rev().collect();
    let mut done = 0;
    for rows in rows.chunks(threads * ROWS) {
        for row in scene.batch(rows).map_err(Unfinished::Refused)? {
            png.row(&row).map_err(Unfinished::Unwritten)?;
        }
        done += rows.len() as u64;
        progress.done(done);
    }
    png.end().map_err(Unfinished::Unwritten)
}
