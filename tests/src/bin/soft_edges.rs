//! Two pictures of faint areas that overlap, in the folder given: `after.ppm` has the pixels of the
//! library, `before.ppm` those that the rule of before Item 1 of document 02 makes of the library's
//! positions. The lowest rows are drawn first. Both are stretched alike: the darkest channel of the two
//! pictures is drawn black and 255 white, here 254 and 255, one step apart. Where the mean of the samples itself
//! passes from one step to the next, as at the sides of the overlap, a picture by either rule shows it.
//! The drawing was chosen to show the bands plainly.

use std::fs;
use std::path::Path;

use zones_tests::meaning::{pixel_before_item_1, samples, Drawing, PIXEL};
use zones_tests::query::CHANNELS;
use zones_tests::readings::SPOT_WORDS;
use zones_tests::record::Record;
use zones_tests::samples;
use zones_tests::scenes::{contour, painted};
use zones_tests::tree::{Tree, TreeTables, MOST_CELLS, MOST_ENTRIES};
use zones_tests::zones::{self, Answer};

/// Pixels of a picture, and how many dots each is drawn as, to either side.
const WIDE: usize = 160;
const HIGH: usize = 120;
const DOTS: usize = 4;

/// A faint area of slanting stripes, six units wide, one every eight units, from a first x on; over the height of
/// the picture they go so many units to the right. In one stripe the sum of a channel is 64,899, or
/// 254.5, rounded to 255; in two it is 64,782, or 254.05, rounded to 254. Pixels where two such areas
/// overlap all have a mean near 254.3, but more or fewer samples that lie in two stripes.
fn striped(first: u32, slant: u32) -> Vec<Record> {
    let top = PIXEL * HIGH as u32;
    let stripe = |n: u32| {
        let x = first + 8 * n;
        contour(&[(x, 0), (x + 6, 0), (x + 6 + slant, top), (x + slant, top)])
    };
    painted(14, [246; 3], (0..256).flat_map(stripe).collect())
}

type Picture = Vec<[u8; CHANNELS]>;

fn after(drawing: Drawing, tree: Tree) -> Picture {
    let row = |row: usize| {
        let mut out = [0; CHANNELS * WIDE];
        let answer = zones::pixel_row(drawing, tree, row as u32, 0, &mut out);
        assert_eq!(answer, Answer::Accepted(0));
        out.as_chunks::<CHANNELS>().0.to_vec()
    };
    (0..HIGH).flat_map(row).collect()
}

fn before(drawing: Drawing, tree: Tree) -> Picture {
    let colour = |(x, y)| {
        let mut out = [0; SPOT_WORDS];
        let answer = zones::position(drawing, tree, x, y, &mut out);
        assert!(matches!(answer, Answer::Accepted(_)));
        [out[3], out[4], out[5]]
    };
    let pixel = |n: usize| samples((n / WIDE) as u32, (n % WIDE) as u32).map(colour);
    (0..WIDE * HIGH)
        .map(|n| pixel_before_item_1(pixel(n)))
        .collect()
}

fn write(path: &Path, picture: &Picture, darkest: u8) -> Result<(), String> {
    let mut bytes = format!("P6 {} {} 255\n", WIDE * DOTS, HIGH * DOTS).into_bytes();
    let span = u32::from(255 - darkest).max(1);
    for n in 0..WIDE * DOTS * HIGH * DOTS {
        let (x, y) = (n % (WIDE * DOTS), n / (WIDE * DOTS));
        let pixel = picture[y / DOTS * WIDE + x / DOTS];
        bytes.extend(pixel.map(|channel| (u32::from(channel - darkest) * 255 / span) as u8));
    }
    fs::write(path, bytes).map_err(|error| error.to_string())
}

fn main() -> Result<(), String> {
    let folder = std::env::args().nth(1).ok_or("give a folder")?;
    let records = [striped(0, 600), striped(512, 540)].concat();
    let tables = samples::tables(&records);
    let drawing = Drawing::of(&tables);
    let mut tree = TreeTables::new(MOST_CELLS, MOST_ENTRIES);
    let opened = zones::open(drawing, &mut tree.lend());
    let grown = zones::grow(drawing, &mut tree.lend(), 8, 12);
    println!("opened {opened:?}, grown {grown:?}");
    let pictures = [before(drawing, tree.view()), after(drawing, tree.view())];
    let darkest = pictures.iter().flatten().flatten().min();
    let darkest = *darkest.expect("a picture has pixels");
    let differ = pictures[0].iter().zip(&pictures[1]).filter(|(b, a)| b != a);
    println!(
        "{} of {} pixels differ; darkest {darkest}",
        differ.count(),
        WIDE * HIGH
    );
    for (name, picture) in ["before.ppm", "after.ppm"].iter().zip(&pictures) {
        write(&Path::new(&folder).join(name), picture, darkest)?;
    }
    Ok(())
}
