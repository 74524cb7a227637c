//! `zones::Map`, which owns its tables, against the second implementation: every method, on random drawings and on records that
//! are refused.

use zones::{Map, Refusal, Refused, CELL_WORDS, HEAD_WORDS};
use zones_tests::class::Square;
use zones_tests::drawing::{self, MOST_RECORDS};
use zones_tests::meaning::{numbers, Drawing, Scene};
use zones_tests::random::Random;
use zones_tests::record::{random_record, Record};
use zones_tests::samples::{self, Tables};
use zones_tests::scenes;
use zones_tests::tree::{self, TreeTables, MOST_CELLS, MOST_ENTRIES};

fn number_and_place(refused: Refused) -> (u32, u32) {
    (refused.refusal.number(), refused.place)
}

/// The refusal of both, or what each gives.
fn both<A, B>(library: Result<A, Refused>, second: Result<B, drawing::Refusal>) -> Option<(A, B)> {
    match (library, second) {
        (Ok(one), Ok(other)) => Some((one, other)),
        (Err(one), Err(other)) => {
            assert_eq!(number_and_place(one), (other.number, other.place));
            None
        }
        (one, other) => panic!("library {:?}, second {:?}", one.err(), other.err()),
    }
}

fn same_tree(map: &Map, second: &TreeTables) {
    let lent = map.tree();
    let in_use = |head: &[u32]| [head[0], head[1]];
    assert_eq!(in_use(lent.head), in_use(&second.head));
    let [cells, entries] = in_use(lent.head).map(|count| count as usize);
    let words = cells * CELL_WORDS;
    assert_eq!(lent.cells[..words], second.cells[..words]);
    let words = entries * zones::ENTRY_WORDS;
    assert_eq!(lent.entries[..words], second.entries[..words]);
    let leaves = |tree: &TreeTables| tree.leaves().len();
    assert_eq!(map.leaves().count(), leaves(second));
    assert_eq!(map.cells().count(), cells);
    (0..cells as u32).for_each(|number| same_cell(map, second, number));
    let unused = cells as u32;
    assert!(map.cell(unused).is_none() && map.upward(unused).next().is_none());
}

/// A cell by its number, and the cells upward from it, as many as it is deep.
fn same_cell(map: &Map, second: &TreeTables, number: u32) {
    let cell = |number: u32| second.view().cell(number);
    let named = |found: zones::Cell| tree::Cell {
        square: Square {
            x: found.x,
            y: found.y,
            side: found.side,
        },
        child: found.child,
        first: found.first,
        count: found.entries,
        lines: found.lines,
        parent: found.parent,
    };
    assert_eq!(map.cell(number).map(named), Some(cell(number)));
    let mut next = number;
    let mut steps = 0;
    for (above, found) in map.upward(number) {
        assert_eq!((above, named(found)), (next, cell(next)));
        next = cell(next).parent;
        steps += 1;
    }
    assert_eq!((next, steps), (0, cell(number).square.depth() + 1));
}

/// An answer that reaches a position is what shows there; it reaches where the leaf is uniform and holds
/// the position.
fn reach(random: &mut Random, scene: &Scene, spot: &zones::Position, at: (u32, u32)) {
    let square = Square {
        x: spot.x,
        y: spot.y,
        side: spot.side,
    };
    for _ in 0..4 {
        let mut beside = |at: u32, low: u32| match random.below(4) {
            0 => low.wrapping_sub(1),
            1 => low + spot.side,
            2 => low + random.below(spot.side as usize) as u32,
            _ => at,
        };
        let (x, y) = (beside(at.0, spot.x), beside(at.1, spot.y));
        let holds = x <= zones::MOST_POSITION && y <= zones::MOST_POSITION && square.holds(x, y);
        assert_eq!(spot.reaches(x, y), spot.uniform && holds);
        if spot.reaches(x, y) {
            let there = scene.position(x, y);
            assert_eq!((spot.shown, spot.material), (there.shown, there.material));
            assert_eq!(spot.colour.map(u32::from), there.colour);
        }
    }
}

fn readings(random: &mut Random, map: &Map, tables: &Tables, tree: &TreeTables) {
    let drawing = Drawing::of(tables);
    let scene = Scene::of(drawing);
    for _ in 0..8 {
        let (x, y) = scenes::any_position(random, tables);
        let (leaf, second) = both(
            map.find_leaf(x, y),
            tree::find_leaf(drawing, tree.view(), x, y),
        )
        .expect("a leaf is found");
        assert_eq!((leaf.cell, leaf.steps), (second.cell, second.steps));
        assert_eq!(
            (leaf.entries, leaf.lines, leaf.uniform),
            (second.entries(), second.lines(), second.uniform())
        );
        let square = second.square;
        assert_eq!(
            (leaf.x, leaf.y, leaf.side),
            (square.x, square.y, square.side)
        );
        let spot = map.position(x, y).expect("a position of the grid");
        let reading = scene.position(x, y);
        assert_eq!(
            (spot.shown, spot.material),
            (reading.shown, reading.material)
        );
        assert_eq!(spot.colour.map(u32::from), reading.colour);
        assert!(spot.areas().eq(numbers(reading.shown)));
        assert_eq!(
            (spot.uniform, spot.x, spot.y, spot.side),
            (leaf.uniform, leaf.x, leaf.y, leaf.side)
        );
        reach(random, &scene, &spot, (x, y));
        let (row, first) = (y / 16, (x / 16).min(4_094));
        let mut pixels = [0; 6];
        map.pixel_row(row, first, &mut pixels).expect("two pixels");
        assert_eq!(
            pixels,
            *[scene.pixel(row, first), scene.pixel(row, first + 1)].as_flattened()
        );
    }
    let length = random.below(40);
    let (px, py) = scenes::run(random, tables, length);
    let log = map.zone_log(&px, &py).expect("a run of positions");
    let expected = scene.zone_log(&px, &py);
    assert!(log.iter().map(|index| *index as u32).eq(expected));
}

#[test]
fn every_method_on_random_drawings() {
    let random = &mut Random::for_test(181);
    for _ in 0..400 {
        let records = match random.below(3) {
            0 => scenes::curved(random),
            _ => scenes::any(random),
        };
        let tables = samples::tables(&records);
        let drawing = Drawing::of(&tables);
        let (cells, entries) = (random.pick(&[1, 40, 300]), random.pick(&[900, 4_000]));
        let mut map = Map::read_with_room(records.as_flattened(), cells, entries).expect("read");
        assert_eq!(map.write().expect("written"), records.as_flattened());
        assert!(map.areas().zip(0..).all(|(area, n)| {
            let second = drawing.area(n);
            u32::from(area.material) == second.material && map.area(n) == Some(area)
        }));
        assert_eq!(map.position(0, 0).map_err(number_and_place), Err((12, 0)));
        let mut tree = TreeTables::new(cells, entries);
        let second = tree::open(drawing, &mut tree.lend());
        if both(map.open(), second).is_none() {
            assert_eq!(map.tree().head, [0; HEAD_WORDS]);
            continue;
        }
        same_tree(&map, &tree);
        let cell = random.pick(&[0, 0, 1, 5]);
        let second = tree::split(drawing, &mut tree.lend(), cell);
        if let Some((one, other)) = both(map.split(cell), second) {
            assert_eq!(one, other);
        }
        let (threshold, limit) = (random.pick(&[0, 1, 4]), random.pick(&[2, 5, 16, 17]));
        let second = tree::grow(drawing, &mut tree.lend(), threshold, limit);
        if let Some((one, other)) = both(map.grow(threshold, limit), second) {
            assert_eq!(
                (one.splits, one.full),
                (other.splits, other.end == tree::End::Full)
            );
        }
        same_tree(&map, &tree);
        readings(random, &map, &tables, &tree);
    }
}

#[test]
fn records_that_are_refused() {
    let random = &mut Random::for_test(182);
    let mut refusals = std::collections::BTreeSet::new();
    for _ in 0..20_000 {
        let mut records: Vec<Record> = scenes::any(random);
        let at = random.below(records.len() + 1);
        match random.below(4) {
            0 => records.insert(at, random_record(random)),
            1 => records.truncate(at),
            2 => records.insert(at, [random.byte() % 10; 16]),
            _ => records.extend(samples::drawing(random, true)),
        }
        let bytes = records.as_flattened();
        let cut = if random.one_in(20) {
            random.below(16)
        } else {
            0
        };
        let bytes = &bytes[..bytes.len().saturating_sub(cut)];
        if let Some((map, size)) = both(Map::read_with_room(bytes, 0, 0), drawing::check(bytes)) {
            assert_eq!(map.drawing().plan[0] as usize, size.records);
            assert_eq!(map.write().as_deref(), Ok(bytes));
        } else {
            refusals.insert(drawing::check(bytes).map(|_| ()).unwrap_err().number);
        }
    }
    let met: Vec<u32> = refusals.into_iter().collect();
    assert_eq!(met, [1, 2, 3, 4, 5, 6, 13]);
    let long = vec![0; 16 * (MOST_RECORDS + 1)];
    assert_eq!(Map::read(&long).map_err(number_and_place), Err((1, 0)));
}

#[test]
fn refusals_and_their_texts() {
    for (refusal, number) in Refusal::ALL.into_iter().zip(1..) {
        assert_eq!(refusal.number(), number);
        assert_eq!(Refusal::from_number(number), Some(refusal));
    }
    assert_eq!(Refusal::from_number(0), None);
    assert_eq!(Refusal::from_number(14), None);
    let refused = Refused {
        refusal: Refusal::Short,
        place: 7,
    };
    assert_eq!(
        refused.to_string(),
        "refused 5 at 7: a contour of under 3 corners"
    );
}

/// A tree at the limits: the room that `Map::read` gives is the most that the library uses.
#[test]
fn room_at_the_limits() {
    let random = &mut Random::for_test(183);
    let records = scenes::zigzags(random);
    let mut map = Map::read(records.as_flattened()).expect("read");
    assert_eq!(map.tree().cells.len(), MOST_CELLS * CELL_WORDS);
    assert_eq!(map.tree().entries.len(), MOST_ENTRIES * zones::ENTRY_WORDS);
    map.open().expect("opened");
    let growth = map.grow(0, 16).expect("grown");
    assert!(growth.full);
    assert_eq!(map.drawing().plan[0] as usize, records.len());
    let mut pixels = [0; 3];
    assert!(map.pixel_row(4_095, 4_095, &mut pixels).is_ok());
    let over = map
        .pixel_row(4_096, 0, &mut pixels)
        .map_err(number_and_place);
    assert_eq!(over, Err((7, 0)));
}
