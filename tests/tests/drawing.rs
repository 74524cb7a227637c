//! The library's `read` and `write` compared with the second implementation.

use zones_tests::compare;
use zones_tests::damage::{self, Damage, DAMAGES};
use zones_tests::drawing::{
    self, AREA, AREA_WORDS, BAR, CLOSE, CONTROL, FIRST, MOST_AREAS, MOST_COORDINATE, MOST_CORNERS,
    MOST_GROUPS, MOST_RECORDS, NEXT, OPEN, PLAN_COUNTS, RECORD_BYTES,
};
use zones_tests::lent::{any_bytes, lent_bytes, Lent, LentTables};
use zones_tests::random::Random;
use zones_tests::record::{clip, corner, delimiter, letters, paint, Record};
use zones_tests::samples::{self, Tables};
use zones_tests::tally::Tally;
use zones_tests::zones::Answer;

// ---- expectations ----

fn refused(number: u32, place: usize) -> Answer {
    Answer::Refused {
        number,
        place: place as u32,
    }
}

/// Both answer a reading into ample tables as the document says.
#[track_caller]
fn expect_read(records: &[Record], expected: Answer) {
    expect_read_bytes(&records.concat(), expected);
}

#[track_caller]
fn expect_read_bytes(bytes: &[u8], expected: Answer) {
    let random = &mut Random::new(bytes.len() as u64);
    let (records, tables) = (lent_bytes(random, bytes), LentTables::ample(random));
    assert_eq!(compare::read(&records, &tables).0, expected);
}

/// Both answer the writing of the records' tables into an ample buffer as the document says.
#[track_caller]
fn expect_write(records: &[Record], expected: Answer) {
    let random = &mut Random::new(records.len() as u64);
    let drawing = LentTables::longer(random, samples::tables(records));
    let out = vec![0xA5; RECORD_BYTES * records.len() + 7];
    let out = lent_bytes(random, &out);
    assert_eq!(compare::write(&drawing, &out).0, expected);
}

/// Accepted records are read, and their drawing is written.
#[track_caller]
fn expect_accepted(records: &[Record]) {
    expect_read(records, Answer::Accepted(records.len() as u32));
    let bytes = (RECORD_BYTES * records.len()) as u32;
    expect_write(records, Answer::Accepted(bytes));
}

/// Records refused by the grammar; as tables they are no drawing.
#[track_caller]
fn expect_refused(records: &[Record], number: u32, place: usize) {
    expect_read(records, refused(number, place));
    if number >= 4 {
        expect_write(records, refused(12, 0));
    }
}

// ---- reading ----

fn name_of_kind(kind: u8) -> &'static str {
    match kind {
        AREA => "area",
        FIRST => "first corner",
        NEXT => "next corner",
        CONTROL => "control corner",
        OPEN => "(",
        BAR => "|",
        _ => ")",
    }
}

/// A file of a random drawing, mostly damaged once or twice.
fn random_file(random: &mut Random) -> Vec<u8> {
    let over = random.one_in(8);
    let records = samples::drawing(random, over);
    if random.one_in(4) {
        return records.concat();
    }
    let bytes = damage::damaged(random, records);
    match bytes.as_chunks::<RECORD_BYTES>() {
        (records, []) if random.one_in(4) => damage::damaged(random, records.to_vec()),
        _ => bytes,
    }
}

/// A random file lent: whole, up to the refused record, or a part. What is cut off becomes guard.
fn random_lent_file(random: &mut Random) -> Lent<u8> {
    let bytes = random_file(random);
    let mut file = lent_bytes(random, &bytes);
    let records = bytes.len() / RECORD_BYTES;
    match drawing::check(&bytes) {
        Err(refusal) if refusal.number > 1 && random.one_in(3) => {
            file.shorten(RECORD_BYTES * (refusal.place as usize + 1));
        }
        _ if random.one_in(8) => {
            let end = random.within(0..=records);
            file.shorten(RECORD_BYTES * end);
            if random.one_in(3) {
                file.start_at(RECORD_BYTES * random.within(0..=end));
            }
        }
        _ => {}
    }
    file
}

/// The length of a table: now and then too short, else exact or longer.
fn length(random: &mut Random, needed: usize) -> usize {
    match random.below(24) {
        0 if needed > 0 => random.pick(&[needed - 1, 0, needed / 2]),
        0..12 => needed,
        _ => needed + random.within(1..=20),
    }
}

#[test]
fn random_records_are_read_alike() {
    let random = &mut Random::for_test(1);
    let mut numbers = Tally::default();
    let mut places = Tally::default();
    for _ in 0..100_000 {
        let file = random_lent_file(random);
        let records = file.table().as_chunks::<RECORD_BYTES>().0;
        let count = |kinds: &[u8]| records.iter().filter(|r| kinds.contains(&r[0])).count();
        let (areas, corners) = (count(&[AREA]), count(&[FIRST, NEXT, CONTROL]));
        let plan = length(random, PLAN_COUNTS + records.len());
        let areas = length(random, AREA_WORDS * areas);
        let xs = length(random, corners);
        let ys = match random.one_in(20) {
            true => length(random, corners),
            false => xs,
        };
        let tables = LentTables::blank(random, [plan, areas, xs, ys]);
        let (answer, _) = compare::read(&file, &tables);
        numbers.note_answer(answer);
        if let Answer::Refused { number, place } = answer {
            note_place(&mut places, number, place as usize, records);
        }
    }
    numbers.print("read");
    places.print("places");
    for what in ["accepted", "1", "2", "3", "4", "5", "6", "7", "11", "13"] {
        numbers.reached(what, 1_000);
    }
    for what in ["2 first", "3 first", "4 first", "4 end", "5 end"] {
        places.reached(what, 100);
    }
    for number in [2, 3, 4, 5, 6, 13] {
        places.reached(&format!("{number} middle"), 100);
        places.reached(&format!("{number} last"), 100);
    }
    for kind in ["area", "first corner", "(", "|", ")", "the end"] {
        places.reached(&format!("5 by {kind}"), 100);
    }
    for kind in ["area", "first corner", "next corner", "("] {
        places.reached(&format!("6 by {kind}"), 20);
    }
    places.reached("6 by control corner", 5);
    places.reached("13 by next corner", 1_000);
}

/// Where a refusal of 2 to 6 or 13 stands among the records, and what kind of record met 5, 6 or 13.
fn note_place(places: &mut Tally, number: u32, place: usize, records: &[Record]) {
    let end = records.len();
    if !(2..=6).contains(&number) && number != 13 {
        return;
    }
    if place == 0 {
        places.note(format!("{number} first"));
    }
    if 0 < place && place + 1 < end {
        places.note(format!("{number} middle"));
    }
    if place + 1 == end {
        places.note(format!("{number} last"));
    }
    if place == end {
        places.note(format!("{number} end"));
    }
    if number >= 5 {
        let kind = match records.get(place) {
            Some(record) => name_of_kind(record[0]),
            None => "the end",
        };
        places.note(format!("{number} by {kind}"));
    }
}

#[test]
fn every_byte_of_every_kind_is_read_alike() {
    let random = &mut Random::for_test(2);
    let mut tally = Tally::default();
    let tables = LentTables::blank(random, [PLAN_COUNTS + 10, AREA_WORDS * 2, 4, 4]);
    // Each kind stands in it, areas of both roles.
    let whole = letters("p2733(c|)");
    expect_accepted(&whole);
    for place in 0..whole.len() {
        for at in 0..RECORD_BYTES {
            for byte in 0..=255 {
                let mut records = whole.clone();
                records[place][at] = byte;
                let file = Lent::new(3, &records.concat(), 3, || 1);
                tally.note_answer(compare::read(&file, &tables).0);
            }
        }
    }
    tally.print("every byte");
    tally.reached("2", whole.len() * 249);
    for (what, least) in [
        ("accepted", 1_000),
        ("3", 1_000),
        ("4", 10),
        ("5", 1),
        ("13", 10),
    ] {
        tally.reached(what, least);
    }
}

#[test]
fn coordinates_near_every_power_of_two_are_read_alike() {
    for bit in 0..32 {
        for coordinate in [(1u32 << bit) - 1, 1 << bit, (1 << bit) + 1, !(1 << bit)] {
            for (x, y) in [(coordinate, 7), (7, coordinate)] {
                let mut records = letters("p2333");
                records[2] = corner(NEXT, x, y);
                if coordinate <= MOST_COORDINATE {
                    expect_accepted(&records);
                } else {
                    expect_refused(&records, 3, 2);
                    expect_write(&records, refused(12, 0));
                }
            }
        }
    }
}

/// All sequences of up to seven of the records p, c, 2, 3, (, |, ); tests/curves.rs has those with 7.
#[test]
fn every_short_sequence_is_read_and_checked_alike() {
    let random = &mut Random::for_test(3);
    let blank = LentTables::blank(random, [PLAN_COUNTS + 7, AREA_WORDS * 7, 6, 6]);
    let out = lent_bytes(random, &[0xA5; RECORD_BYTES * 7]);
    let alphabet = letters("pc23(|)");
    let mut tally = Tally::default();
    for len in 0..=7 {
        for number in 0..alphabet.len().pow(len) {
            let letter = |i| alphabet[number / alphabet.len().pow(i) % alphabet.len()];
            let records: Vec<Record> = (0..len).map(letter).collect();
            let file = Lent::new(1, &records.concat(), 1, || 4);
            let (read, _) = compare::read(&file, &blank);
            tally.note_answer(read);
            // The lent drawing passes exactly when the records are accepted.
            let tables = samples::tables(&records);
            let drawing = LentTables {
                plan: Lent::new(1, &tables.plan, 1, || 6),
                areas: Lent::new(1, &tables.areas, 1, || 0),
                xs: Lent::new(1, &tables.xs, 1, || 0),
                ys: Lent::new(1, &tables.ys, 1, || 0),
            };
            let (written, _) = compare::write(&drawing, &out);
            match read {
                Answer::Accepted(records) => assert_eq!(written, Answer::Accepted(16 * records)),
                Answer::Refused { .. } => assert_eq!(written, refused(12, 0)),
            }
        }
    }
    tally.print("short sequences");
}

// ---- limits and order ----

fn repeated(text: &str, times: usize) -> Vec<Record> {
    letters(&text.repeat(times))
}

#[test]
fn limits() {
    // Records.
    expect_accepted(&letters(&format!("p{}", "(|)".repeat(1_365))));
    let too_many = letters(&format!("pp{}", "(|)".repeat(1_365)));
    assert_eq!(too_many.len(), MOST_RECORDS + 1);
    expect_read(&too_many, refused(1, 0));
    expect_write(&too_many, refused(12, 0));
    expect_read(&repeated(")", MOST_RECORDS), refused(4, 0));
    expect_read(&repeated(")", MOST_RECORDS + 1), refused(1, 0));

    // Areas, in a row, with contours, and in groups.
    expect_accepted(&repeated("p", MOST_AREAS));
    expect_refused(&repeated("p", MOST_AREAS + 1), 6, MOST_AREAS);
    expect_accepted(&repeated("p233", MOST_AREAS));
    expect_refused(&repeated("p233", MOST_AREAS + 1), 6, 4 * MOST_AREAS);
    let pairs = MOST_AREAS / 2;
    expect_accepted(&repeated("(c|p)", pairs));
    expect_refused(&repeated("(c|p)", pairs + 1), 6, 5 * pairs + 1);

    // Corners, the one too many of either kind.
    let contour = |corners: usize| letters(&format!("p2{}", "3".repeat(corners - 1)));
    expect_accepted(&contour(MOST_CORNERS));
    expect_refused(&contour(MOST_CORNERS + 1), 6, 1 + MOST_CORNERS);
    let contours = |rest: &str| letters(&format!("p{}{rest}", "2333".repeat(MOST_CORNERS / 4)));
    expect_accepted(&contours(""));
    expect_accepted(&contours("p(|)"));
    expect_refused(&contours("2"), 6, 1 + MOST_CORNERS);
    expect_refused(&contours("3"), 6, 1 + MOST_CORNERS);
    expect_refused(&contours("p2"), 6, 2 + MOST_CORNERS);

    // Groups, on left sides and on right sides.
    let nest = |deep: usize, open: &str, close: &str| {
        letters(&format!("{}{}", open.repeat(deep), close.repeat(deep)))
    };
    for (open, close) in [("(", "|)"), ("(|", ")"), ("(c|p", ")"), ("(c|p", "p)")] {
        expect_accepted(&nest(MOST_GROUPS, open, close));
        let ninth = open.len() * MOST_GROUPS;
        expect_refused(&nest(MOST_GROUPS + 1, open, close), 6, ninth);
    }
    // Those open at once count, not all.
    expect_accepted(&repeated("((((((((|)|)|)|)|)|)|)|)", 20));
    expect_accepted(&letters("((((((((|)(|)|)|)|)|)|)|)|)"));
    expect_refused(&letters("((((((((|)(("), 6, 11);
    expect_refused(&letters("((((((((|("), 6, 9);

    // All at once.
    let random = &mut Random::for_test(4);
    let full = samples::full(random, MOST_AREAS, MOST_CORNERS, 661);
    assert_eq!(full.len(), MOST_RECORDS - 1);
    expect_accepted(&full);
    let fullest = samples::fullest(random);
    assert_eq!(fullest.len(), MOST_RECORDS);
    expect_accepted(&fullest);
}

#[test]
fn lengths_of_files() {
    expect_accepted(&[]);
    for len in 0..=64 {
        let bytes = &letters("pppp").concat()[..len];
        let whole = len % RECORD_BYTES == 0;
        let records = Answer::Accepted((len / RECORD_BYTES) as u32);
        expect_read_bytes(bytes, if whole { records } else { refused(1, 0) });
    }
    let most = RECORD_BYTES * MOST_RECORDS;
    let bytes = letters(&format!("p{}", "(|)".repeat(1_400))).concat();
    expect_read_bytes(&bytes[..most], Answer::Accepted(MOST_RECORDS as u32));
    expect_read_bytes(&bytes[..most - 1], refused(1, 0));
    for more in [1, 15, 16, 17, 32] {
        expect_read_bytes(&bytes[..most + more], refused(1, 0));
    }
    expect_read_bytes(&bytes, refused(1, 0));
}

#[test]
fn what_fits() {
    let accepted = "p (|) (c|p)p ((c|c)c|p) (c(c|c)|p(c|p)p)p (((|)|(|))|((|)|(|))) (|(c|p(c|p))) \
                    p233233p(c233|p233)";
    for text in accepted.split_whitespace() {
        expect_accepted(&letters(text));
    }
    let last_does_not_fit = "c (p (c|c (c|p)c ((p ((c|p ((c|c)p ((c|c)|c (|(p (|(c|c \
                             | ) () (|| (|)) (|)| ((|)|)p| \
                             2 3 p3 (2 (|2 (|)2 (c233(3 p233(|)3 p233p3 (c|2 (c|3 (|p)2";
    for text in last_does_not_fit.split_whitespace() {
        expect_refused(&letters(text), 4, text.len() - 1);
    }
    for text in "( (| ((|) (|(|) ((|)| p( p233( (c|p233".split_whitespace() {
        expect_refused(&letters(text), 4, text.len());
    }
}

#[test]
fn short_contours() {
    for corners in ["2", "23"] {
        // The kind that ends it, and what stands before it.
        for (before, ends) in [
            ("p", "p"),
            ("p", "2"),
            ("p", "("),
            ("(c", "|"),
            ("(|p", ")"),
            ("p", ""),
        ] {
            for contours in ["", "233", "233233"] {
                let records = letters(&format!("{before}{contours}{corners}{ends}"));
                let place = before.len() + contours.len() + corners.len();
                expect_refused(&records, 5, place);
                // With one more record the place stays, unless the end was the place.
                if !ends.is_empty() {
                    let more = letters(&format!("{before}{contours}{corners}{ends}3"));
                    expect_refused(&more, 5, place);
                }
            }
        }
    }
    expect_accepted(&letters("p233"));
}

#[test]
fn order_of_checks() {
    let marked = |records: &[Record], place: usize, at: usize, byte: u8| {
        let mut records = records.to_vec();
        records[place][at] = byte;
        records
    };
    let areas = repeated("p", MOST_AREAS + 1);
    let groups = repeated("(", MOST_GROUPS + 1);
    // 2 before 3, 4, 5, 6.
    expect_read(&[[8; RECORD_BYTES]], refused(2, 0));
    expect_read(&[[0xFF; RECORD_BYTES]], refused(2, 0));
    expect_read(&marked(&letters("p23("), 3, 0, 9), refused(2, 3));
    expect_read(&marked(&areas, MOST_AREAS, 0, 0), refused(2, MOST_AREAS));
    expect_read(&marked(&groups, MOST_GROUPS, 0, 8), refused(2, MOST_GROUPS));
    // 3 before 4, 5, 6.
    expect_read(&[[7; RECORD_BYTES]], refused(3, 0));
    expect_read(&[corner(NEXT, MOST_COORDINATE + 1, 0)], refused(3, 0));
    expect_read(&[corner(FIRST, 0, MOST_COORDINATE + 1)], refused(3, 0));
    expect_read(&marked(&letters(")"), 0, 15, 1), refused(3, 0));
    expect_read(&marked(&letters("c"), 0, 3, 1), refused(3, 0));
    expect_read(&marked(&letters("p23("), 3, 1, 1), refused(3, 3));
    expect_read(&marked(&letters("p23p"), 3, 8, 0), refused(3, 3));
    expect_read(&marked(&areas, MOST_AREAS, 7, 1), refused(3, MOST_AREAS));
    expect_read(&marked(&groups, MOST_GROUPS, 1, 1), refused(3, MOST_GROUPS));
    // 4 before 5.
    for text in ["p23)", "p23|", "p23c", "p2)", "p2|", "p2c"] {
        expect_refused(&letters(text), 4, text.len() - 1);
    }
    // 4 before 6.
    let mut areas = repeated("p", MOST_AREAS);
    areas.push(clip());
    expect_refused(&areas, 4, MOST_AREAS);
    let corners = "3".repeat(MOST_CORNERS - 1);
    expect_refused(&letters(&format!("p2{corners}p3")), 4, MOST_CORNERS + 2);
    expect_refused(&letters(&format!("p2{corners}(2")), 4, MOST_CORNERS + 2);
    // 4 before 5 and 6.
    let mut areas = letters(&format!("{}23", "p".repeat(MOST_AREAS)));
    areas.push(clip());
    expect_refused(&areas, 4, MOST_AREAS + 2);
    // 5 before 6.
    let mut areas = letters(&format!("{}23", "p".repeat(MOST_AREAS)));
    areas.push(paint());
    expect_refused(&areas, 5, MOST_AREAS + 2);
    let corners = "3".repeat(MOST_CORNERS - 3);
    expect_refused(&letters(&format!("p2{corners}232")), 5, MOST_CORNERS + 1);
    expect_refused(&letters("((((((((c23("), 5, 11);
    // At the end 4 before 5.
    for text in ["(c2", "(c23", "(|p2", "(|p23"] {
        expect_refused(&letters(text), 4, text.len());
    }
    // An earlier record before a later one, whatever the numbers.
    let mut records = letters("p3()p");
    records[4][0] = 8;
    expect_read(&records, refused(4, 1));
    // 1 before the records.
    expect_read_bytes(&[7; 17], refused(1, 0));
    expect_read_bytes(&[7; RECORD_BYTES * (MOST_RECORDS + 1)], refused(1, 0));
}

#[test]
fn order_of_checks_with_tables() {
    let random = &mut Random::for_test(5);
    let mut read = |bytes: &[u8], lengths: [usize; 4]| {
        let records = lent_bytes(random, bytes);
        let tables = LentTables::blank(random, lengths);
        compare::read(&records, &tables).0
    };
    let whole = letters("p233(c|)").concat();
    let unknown = [8; RECORD_BYTES];
    let too_many = [0; RECORD_BYTES * (MOST_RECORDS + 1)];
    // 7 before 1, the records, the end, 11.
    assert_eq!(read(&[7; 17], [99, 99, 9, 8]), refused(7, 0));
    assert_eq!(read(&too_many, [0, 0, 0, 1]), refused(7, 0));
    assert_eq!(read(&unknown, [99, 99, 8, 9]), refused(7, 0));
    assert_eq!(read(&delimiter(OPEN), [99, 99, 8, 9]), refused(7, 0));
    assert_eq!(read(&whole, [0, 0, 3, 4]), refused(7, 0));
    assert_eq!(read(&whole, [99, 99, 3, 4]), refused(7, 0));
    assert_eq!(read(&[], [3, 0, 1, 0]), refused(7, 0));
    // 1, the records and the end before 11.
    assert_eq!(read(&[1; 17], [0; 4]), refused(1, 0));
    assert_eq!(read(&unknown, [0; 4]), refused(2, 0));
    assert_eq!(read(&delimiter(CLOSE), [0; 4]), refused(4, 0));
    assert_eq!(read(&letters("pc").concat(), [3, 0, 0, 0]), refused(4, 1));
    assert_eq!(read(&letters("p23").concat(), [3, 0, 0, 0]), refused(5, 3));
    assert_eq!(read(&delimiter(OPEN), [0; 4]), refused(4, 1));
    assert_eq!(read(&letters("((((((((((").concat(), [0; 4]), refused(6, 8));
    // 11 for each table that is one word too short.
    assert_eq!(read(&whole, [11, 16, 3, 3]), Answer::Accepted(8));
    assert_eq!(read(&whole, [12, 17, 4, 4]), Answer::Accepted(8));
    assert_eq!(read(&whole, [10, 16, 3, 3]), refused(11, 0));
    assert_eq!(read(&whole, [11, 15, 3, 3]), refused(11, 0));
    assert_eq!(read(&whole, [11, 16, 2, 2]), refused(11, 0));
    assert_eq!(read(&[], [3, 0, 0, 0]), Answer::Accepted(0));
    for plan in 0..3 {
        assert_eq!(read(&[], [plan, 0, 0, 0]), refused(11, 0));
    }
}

#[test]
fn order_of_checks_of_writing() {
    let random = &mut Random::for_test(6);
    let mut write = |tables: &Tables, len: usize| {
        let drawing = LentTables::new(random, tables);
        let out = lent_bytes(random, &vec![0xA5; len]);
        compare::write(&drawing, &out).0
    };
    let whole = samples::tables(&letters("p233(c|)"));
    assert_eq!(write(&whole, 128), Answer::Accepted(128));
    assert_eq!(write(&whole, 300), Answer::Accepted(128));
    assert_eq!(write(&whole, 127), refused(11, 0));
    assert_eq!(write(&whole, 0), refused(11, 0));
    // 12 before 11.
    let mut broken = whole.clone();
    broken.plan[3] = 8;
    assert_eq!(write(&broken, 128), refused(12, 0));
    assert_eq!(write(&broken, 0), refused(12, 0));
    // 7 before 12 and 11.
    broken.xs.push(1);
    assert_eq!(write(&broken, 0), refused(7, 0));
    let mut unequal = whole.clone();
    unequal.ys.push(1);
    assert_eq!(write(&unequal, 128), refused(7, 0));
    assert_eq!(write(&unequal, 0), refused(7, 0));
    // The empty drawing, and a plan too short for its counts.
    let mut empty = samples::tables(&[]);
    assert_eq!(write(&empty, 0), Answer::Accepted(0));
    assert_eq!(write(&empty, 9), Answer::Accepted(0));
    for plan in (0..3).rev() {
        empty.plan.truncate(plan);
        assert_eq!(write(&empty, 9), refused(12, 0));
        assert_eq!(write(&empty, 0), refused(12, 0));
    }
    // What the counts do not name is not looked at.
    let mut longer = whole.clone();
    longer.plan.extend([9, 9]);
    longer.areas.extend([9; 11]);
    longer.xs.push(u32::MAX);
    longer.ys.push(u32::MAX);
    assert_eq!(write(&longer, 128), Answer::Accepted(128));
    for count in 0..3 {
        let mut more = longer.clone();
        more.plan[count] += 1;
        assert_eq!(write(&more, 300), refused(12, 0));
        let mut fewer = longer.clone();
        fewer.plan[count] -= 1;
        assert_eq!(write(&fewer, 300), refused(12, 0));
    }
}

// ---- writing ----

#[test]
fn what_was_read_is_written_back() {
    let random = &mut Random::for_test(7);
    let mut tally = Tally::default();
    for _ in 0..10_000 {
        let records = samples::drawing(random, false);
        let bytes = records.concat();
        let longer = LentTables::longer(random, samples::tables(&records));
        let blank = LentTables::blank(random, longer.each().map(|table| table.table().len()));
        let (answer, drawing) = compare::read(&lent_bytes(random, &bytes), &blank);
        assert_eq!(answer, Answer::Accepted(records.len() as u32));

        for len in [bytes.len(), bytes.len() + random.within(1..=40)] {
            let before = any_bytes(random, len);
            let (answer, out) = compare::write(&drawing, &lent_bytes(random, &before));
            tally.note_answer(answer);
            assert_eq!(answer, Answer::Accepted(bytes.len() as u32));
            assert!(out.table()[..bytes.len()] == bytes);
            assert!(out.table()[bytes.len()..] == before[bytes.len()..]);
        }
        if !bytes.is_empty() {
            for len in [bytes.len() - 1, random.below(bytes.len())] {
                let before = any_bytes(random, len);
                let (answer, _) = compare::write(&drawing, &lent_bytes(random, &before));
                tally.note_answer(answer);
                assert_eq!(answer, refused(11, 0));
            }
        }
    }
    tally.print("written back");
    tally.reached("accepted", 10_000);
    tally.reached("11", 10_000);
}

#[test]
fn words_near_every_power_of_two_are_written_alike() {
    let random = &mut Random::for_test(10);
    let mut tally = Tally::default();
    let whole = LentTables::longer(random, samples::tables(&letters("p2733(c|)")));
    let out = lent_bytes(random, &[0xA5; 200]);
    for table in 0..4 {
        for at in 0..whole.each()[table].table().len() {
            for bit in 0..32 {
                for word in [(1u32 << bit) - 1, 1 << bit, (1 << bit) + 1, !(1 << bit)] {
                    let mut drawing = whole.clone();
                    drawing.each_mut()[table].table_mut()[at] = word;
                    tally.note_answer(compare::write(&drawing, &out).0);
                }
            }
        }
    }
    tally.print("every word");
    tally.reached("accepted", 100);
    tally.reached("12", 100);
}

/// A drawing to lend, and how it was made.
fn random_lent_drawing(random: &mut Random) -> (LentTables, String) {
    let over = random.one_in(8);
    let records = samples::drawing(random, over);
    if over {
        let drawing = LentTables::longer(random, samples::tables(&records));
        return (drawing, "over limits".to_string());
    }
    if random.one_in(6) {
        let bytes = damage::damaged(random, records);
        let tables = samples::tables(bytes.as_chunks().0);
        let drawing = LentTables::longer(random, tables);
        return (drawing, "damaged records".to_string());
    }
    let mut drawing = LentTables::longer(random, samples::tables(&records));
    if random.one_in(6) {
        return (drawing, "whole".to_string());
    }
    let damage = random.pick(&DAMAGES);
    damage::damage_tables(random, &mut drawing, damage);
    (drawing, format!("{damage:?}"))
}

#[test]
fn random_lent_drawings_are_written_alike() {
    let random = &mut Random::for_test(8);
    let mut numbers = Tally::default();
    let mut makes = Tally::default();
    for _ in 0..50_000 {
        let (drawing, made) = random_lent_drawing(random);
        let holds = drawing.plan.table().len().saturating_sub(PLAN_COUNTS);
        let len = match random.below(8) {
            0 => random.below(RECORD_BYTES * holds + 1),
            _ => RECORD_BYTES * holds + random.below(20),
        };
        let before = any_bytes(random, len);
        let (answer, _) = compare::write(&drawing, &lent_bytes(random, &before));
        numbers.note_answer(answer);
        match answer {
            Answer::Accepted(_) | Answer::Refused { number: 11, .. } => {
                makes.note(format!("{made} passes"));
            }
            Answer::Refused { number, .. } => makes.note(format!("{made} {number}")),
        }
    }
    numbers.print("write");
    makes.print("made");
    for what in ["accepted", "7", "11", "12"] {
        numbers.reached(what, 1_000);
    }
    for what in ["whole passes", "over limits 12", "damaged records 12"] {
        makes.reached(what, 100);
    }
    for damage in DAMAGES {
        let number = if damage == Damage::PairUnequal { 7 } else { 12 };
        makes.reached(&format!("{damage:?} {number}"), 100);
    }
}

#[test]
fn a_drawing_written_and_read_again_is_the_same() {
    let random = &mut Random::for_test(9);
    let mut tally = Tally::default();
    for _ in 0..20_000 {
        let (drawing, _) = random_lent_drawing(random);
        let room = RECORD_BYTES * drawing.plan.table().len();
        let before = any_bytes(random, room);
        let (answer, out) = compare::write(&drawing, &lent_bytes(random, &before));
        tally.note_answer(answer);
        if let Answer::Accepted(bytes) = answer {
            let records = lent_bytes(random, &out.table()[..bytes as usize]);
            let (answer, again) = compare::read(&records, &drawing);
            assert_eq!(answer, Answer::Accepted(bytes / RECORD_BYTES as u32));
            assert!(again == drawing, "not the same drawing: {drawing:?}");
        }
    }
    tally.print("written and read again");
    tally.reached("accepted", 1_000);
}
