//! Document 000's flat clipping, against which the meaning of sides and groups is tried.

use crate::drawing::CLIP;
use crate::meaning::{fill_passes, Drawing};
use crate::stream::{winding, Entry};

#[derive(Clone, Copy, PartialEq, Eq)]
enum State {
    P,
    S,
    SA,
}

/// "A stream is read in one pass as in document 000's flat clipping, states P, S and SA": the
/// shown set by the paper's machine. Its count u of groups that are not yet activated is left out,
/// as docs/DECISIONS.md says; that the meaning agrees is tried, not assumed.
pub fn shown(drawing: Drawing, entries: &[Entry], x: u32, y: u32) -> u64 {
    let (mut state, mut depth, mut stop, mut shown) = (State::P, 0, 0, 0);
    for (i, entry) in entries.iter().enumerate() {
        match entry {
            Entry::Open => depth += 1,
            Entry::Bar => match state {
                // The clip test failed: skip to the matching `)`.
                State::P => (state, stop) = (State::SA, depth),
                State::S if depth <= stop => state = State::P,
                _ => {}
            },
            Entry::Close => {
                match state {
                    State::S if depth <= stop => stop = depth - 1,
                    State::SA if depth <= stop => state = State::P,
                    _ => {}
                }
                depth -= 1;
            }
            Entry::Passes if state == State::P => (state, stop) = (State::S, depth),
            Entry::Area { number, start } if state == State::P => {
                let segments: Vec<Entry> = entries[i + 1..]
                    .iter()
                    .take_while(|entry| entry.is_segment())
                    .copied()
                    .collect();
                let winding = winding(drawing, *start, &segments, x, y);
                let area = drawing.area(*number);
                if fill_passes(area.rule, winding) {
                    if area.role == CLIP {
                        (state, stop) = (State::S, depth);
                    } else {
                        shown |= 1 << number;
                        if area.alpha == 255 {
                            (state, stop) = (State::S, 0);
                        }
                    }
                }
            }
            _ => {}
        }
    }
    shown
}
