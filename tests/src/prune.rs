//! Pruning by literal rewriting: rules 12 to 18 of document 000 on the sides and groups of a
//! stream, "leftmost place first, lowest rule first". In the paper "non-terminals A, B, and C
//! represent well-formed streams, while ϵ represents the empty stream": so in a rule the F1 or C1
//! stands on the group's own side, not in a group on it, and A, B and C may be empty.

use crate::drawing::PAINT;
use crate::meaning::{fill_passes, Drawing, Item, Side, OPAQUE};
use crate::random::Random;
use crate::stream::{of_sides, sides_of, Entry, Piece};

/// "F0, C0, F1, C1 are areas with no line or shortcut, whose start number fails or passes; F1 also
/// has alpha 255." The bare "passes" "is a C1 in every rule".
#[derive(Clone, Copy, PartialEq, Eq, Debug)]
enum Terminal {
    F0,
    C0,
    F1,
    C1,
    Other,
}

fn terminal(drawing: Drawing, piece: &Piece) -> Terminal {
    let Piece::Area {
        number,
        start,
        segments,
    } = piece
    else {
        return Terminal::C1;
    };
    if !segments.is_empty() {
        return Terminal::Other;
    }
    let area = drawing.area(*number);
    match (area.role == PAINT, fill_passes(area.rule, *start)) {
        (true, false) => Terminal::F0,
        (true, true) if area.alpha == OPAQUE => Terminal::F1,
        (true, true) => Terminal::Other,
        (false, false) => Terminal::C0,
        (false, true) => Terminal::C1,
    }
}

/// The first item of a side that is this terminal.
fn first_of(drawing: Drawing, side: &Side<Piece>, which: Terminal) -> Option<usize> {
    side.iter()
        .position(|item| matches!(item, Item::One(piece) if terminal(drawing, piece) == which))
}

/// A rule at a place. The place of 12 and 13 is the area's, that of 14 to 18 the group's `(`; rule
/// 14 at the top level stands before all others, at the `(` of the paper's "dummy push-pop pair"
/// around the scene. A place is the way to it: item numbers, each but the last followed by the
/// side of that group (0 left, 1 right).
#[derive(Clone, PartialEq, Eq, Debug)]
struct Step {
    rule: u32,
    way: Vec<usize>,
}

/// Rules at places, leftmost place first and at a place the lowest rule first.
struct Steps {
    found: Vec<Step>,
    /// The search ends when so many are found.
    most: usize,
    way: Vec<usize>,
}

impl Steps {
    fn of(drawing: Drawing, top: &Side<Piece>, most: usize) -> Vec<Step> {
        let mut steps = Steps {
            found: Vec::new(),
            most,
            way: Vec::new(),
        };
        // "The top level obeys rule 14 like a group's right side."
        let opaque = first_of(drawing, top, Terminal::F1);
        if opaque.is_some_and(|at| at + 1 < top.len()) {
            steps.fits(14);
        }
        steps.search(drawing, top);
        steps.found
    }

    fn fits(&mut self, rule: u32) {
        let way = self.way.clone();
        self.found.push(Step { rule, way });
    }

    /// Searches a side, to which the way leads.
    fn search(&mut self, drawing: Drawing, side: &Side<Piece>) {
        for (i, item) in side.iter().enumerate() {
            if self.found.len() >= self.most {
                return;
            }
            self.way.push(i);
            match item {
                Item::One(piece) => match terminal(drawing, piece) {
                    // "F0 → ε (12)": a paint area that fails in the whole cell goes.
                    Terminal::F0 => self.fits(12),
                    // "C0 → ε (13)": a clip area likewise.
                    Terminal::C0 => self.fits(13),
                    _ => {}
                },
                Item::Group { left, right } => {
                    self.search_group(drawing, left, right);
                    for (number, side) in [left, right].into_iter().enumerate() {
                        self.way.push(number);
                        self.search(drawing, side);
                        self.way.pop();
                    }
                }
            }
            self.way.pop();
        }
    }

    /// The rules at a group's own place.
    fn search_group(&mut self, drawing: Drawing, left: &Side<Piece>, right: &Side<Piece>) {
        // "(A | B F1 C) → (A | B F1) (14)": of several F1 the first, so that B has none. "Rules 14
        // and 18 apply where they remove something": C is not empty.
        let opaque = first_of(drawing, right, Terminal::F1);
        if opaque.is_some_and(|at| at + 1 < right.len()) {
            self.fits(14);
        }
        // "(| A) → ε (15)": nothing on the left never passes, so the group goes with its right.
        if left.is_empty() {
            self.fits(15);
        }
        // "(A |) → ε (16)": nothing on the right shows or passes nothing.
        if right.is_empty() {
            self.fits(16);
        }
        // "(A C1 B | C) → C (17)": the left passes everywhere, so what stands on the right takes
        // the group's place on the side around it.
        if first_of(drawing, left, Terminal::C1).is_some() {
            self.fits(17);
        }
        // "(A | B C1 C) → (A | C1) (18)": on a clip side, as C1 stands on no other. Of several C1
        // any is kept: all become the bare entry. B or C is not empty.
        if first_of(drawing, right, Terminal::C1).is_some() && right.len() > 1 {
            self.fits(18);
        }
    }
}

/// Makes one step.
fn make(drawing: Drawing, top: &mut Side<Piece>, step: &Step) {
    let Some((at, sides)) = step.way.split_last() else {
        cut_behind_opaque(drawing, top);
        return;
    };
    let mut side = top;
    for pair in sides.chunks_exact(2) {
        side = match &mut side[pair[0]] {
            Item::Group { left, .. } if pair[1] == 0 => left,
            Item::Group { right, .. } => right,
            Item::One(_) => panic!("a way leads through groups"),
        };
    }
    match (step.rule, &mut side[*at]) {
        // → ε
        (12 | 13, Item::One(_)) | (15 | 16, Item::Group { .. }) => _ = side.remove(*at),
        (14, Item::Group { right, .. }) => cut_behind_opaque(drawing, right),
        (17, Item::Group { right, .. }) => {
            let right = std::mem::take(right);
            side.splice(at..=at, right);
        }
        (18, Item::Group { right, .. }) => {
            let kept = first_of(drawing, right, Terminal::C1).expect("18 has its C1");
            *right = vec![right.swap_remove(kept)];
        }
        (rule, item) => panic!("rule {rule} does not fit {item:?}"),
    }
}

/// What stands behind the first F1 of a side is removed.
fn cut_behind_opaque(drawing: Drawing, side: &mut Side<Piece>) {
    let at = first_of(drawing, side, Terminal::F1).expect("14 has its F1");
    side.truncate(at + 1);
}

/// "C1 becomes a bare entry "passes", with no area number".
fn bare(drawing: Drawing, side: &mut Side<Piece>) {
    for item in side {
        match item {
            Item::One(piece) => {
                if terminal(drawing, piece) == Terminal::C1 {
                    *piece = Piece::Passes;
                }
            }
            Item::Group { left, right } => {
                bare(drawing, left);
                bare(drawing, right);
            }
        }
    }
}

/// What a pruning did: the stream, and how often each rule from 12 on was used.
#[derive(Clone, PartialEq, Eq, Debug)]
pub struct Pruned {
    pub stream: Vec<Entry>,
    pub used: [usize; 7],
}

/// "It is then pruned by rules 12 to 18 of document 000, leftmost place first, lowest rule first."
pub fn prune(drawing: Drawing, stream: &[Entry]) -> Vec<Entry> {
    prune_and_count(drawing, stream).stream
}

pub fn prune_and_count(drawing: Drawing, stream: &[Entry]) -> Pruned {
    let mut top = sides_of(stream);
    let mut used = [0; 7];
    while let Some(step) = Steps::of(drawing, &top, 1).first() {
        used[step.rule as usize - 12] += 1;
        make(drawing, &mut top, step);
    }
    bare(drawing, &mut top);
    let stream = of_sides(&top);
    Pruned { stream, used }
}

/// The rules in any order, at any place, and C1 made bare at any time.
pub fn prune_in_any_order(drawing: Drawing, stream: &[Entry], random: &mut Random) -> Vec<Entry> {
    let mut top = sides_of(stream);
    loop {
        if random.one_in(4) {
            bare(drawing, &mut top);
        }
        let steps = Steps::of(drawing, &top, usize::MAX);
        match steps.len() {
            0 => break,
            n => make(drawing, &mut top, &steps[random.below(n)]),
        }
    }
    bare(drawing, &mut top);
    of_sides(&top)
}
