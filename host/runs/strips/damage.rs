//! Calls on damaged strips, on other columns and on short slices: the number is foretold, and no byte may change.

use super::court::columns;
use super::rows::Maker;
use super::tally::Tally;
use puffwidget::{BatchCoalescer, BufferNumber, Kind, Memory, SetUp, Strip};
use runs::columns::{batch_of, primitive, views};
use runs::rng::Rng;
use runs::strip_model::{Row, Strip as Model};

/// A court with batches waiting, and a strip some rows old.
struct World {
    memory: Memory,
    strip: Vec<u8>,
    /// the rows of the front batch, and the strip as the model has it
    front: Vec<Row>,
    model: Model,
}

/// What a call is handed besides the court.
struct Handed {
    memory: Memory,
    strip: Vec<u8>,
    numbers: usize,
}

/// A court of few rows, the first of which the strip has taken, behind the rows of a history.
fn world(rng: &mut Rng, begun: &Strip, mut model: Model, tally: &mut Tally) -> World {
    let target = rng.within(1, 4);
    let set_up = SetUp { rows: 16, queue: 8, lists: 16, numbers: 16, pool: 1 << 18, ..SetUp::new(&Strip::KINDS, target as u32) };
    let mut coalescer = BatchCoalescer::new(&set_up).expect("a court");
    let count = rng.within(target, 4 * target);
    let rows = Maker::behind(rng, model.clone()).rows(rng, count, tally);
    let made = columns(rng, &mut coalescer, &rows, tally);
    coalescer.push_batch(&batch_of(count, &made)).expect("room for the rows");
    for number in &made[3].list {
        coalescer.let_go(BufferNumber(*number)).expect("a buffer that is held");
    }
    let (mut strip, mut at) = (begun.clone(), 0);
    for _ in 0..rng.below(count / target) {
        strip.take_batch(&mut coalescer).expect("a strip and a court").expect("a batch");
        for row in &rows[at..at + target] {
            model.take(row);
        }
        at += target;
    }
    World { memory: coalescer.memory().clone(), strip: strip.bytes().to_vec(), front: rows[at..at + target].to_vec(), model }
}

impl Handed {
    /// Both calls are refused with this number and change nothing.
    fn refused(&self, number: u32) {
        for takes in [false, true] {
            let (mut memory, mut strip, mut numbers) = (self.memory.clone(), self.strip.clone(), vec![0xa5; self.numbers]);
            let answer = if takes { memory.strip_take(&mut strip, &mut numbers) } else { memory.strip_read(&mut strip, &mut numbers) };
            assert_eq!(answer, Err(number), "take: {takes}");
            assert!(memory == self.memory && strip == self.strip, "a refused call changed something");
            assert!(numbers.iter().all(|byte| *byte == 0xa5), "a refused call answered rows");
        }
    }
}

/// A damage of a strip's 972 bytes that leaves no strip, by name.
fn damaged(rng: &mut Rng, strip: &mut [u8]) -> &'static str {
    let side = rng.pick(&[12, 492]);
    let out = strip[side] as usize;
    let name = side + 4 + 68 * rng.below(out);
    let length = strip[name] as usize;
    let (what, at, value) = match rng.below(11) {
        0 => ("8 out on a side", side, 8),
        1 => ("a large count", side, rng.next() as u32 | 1 << 31),
        2 if out > 0 => ("a name of 0 bytes", name, 0),
        3 if out > 0 => ("a name of 65 bytes", name, 65),
        4 if out > 0 => ("a name of 4,294,967,295 bytes", name, u32::MAX),
        5 if out < 7 => ("a count of one more", side, out as u32 + 1),
        6 if out > 0 => ("a count of one less", side, out as u32 - 1),
        7 => ("a flag over 1", 0, rng.pick(&[2, 256, 1 << 31])),
        8 if out > 0 && length < 64 => return spare(rng, strip, name + 4 + length, name + 68, "a spare byte behind a name"),
        9 if out < 7 => return spare(rng, strip, side + 4 + 68 * out, side + 480, "a spare byte behind the names"),
        _ => {
            strip[..4].fill(0);
            ("a number and no flag", rng.pick(&[4, 8]), rng.next() as u32 | 1)
        }
    };
    strip[at..at + 4].copy_from_slice(&value.to_le_bytes());
    what
}

/// A byte that is not zero, between two places.
fn spare(rng: &mut Rng, strip: &mut [u8], from: usize, to: usize, what: &'static str) -> &'static str {
    strip[rng.within(from, to - 1)] = rng.within(1, 255) as u8;
    what
}

/// Damaged strips, strips and answers of other lengths, and which of two numbers comes first.
fn strips(rng: &mut Rng, world: &World, tally: &mut Tally) {
    let rows = world.front.len();
    let good = || Handed { memory: world.memory.clone(), strip: world.strip.clone(), numbers: rows };
    let mut spoilt = good();
    tally.count("damaged strips (14)", damaged(rng, &mut spoilt.strip));
    spoilt.refused(14);
    assert!(Strip::from_bytes(&spoilt.strip).is_err_and(|error| error.number() == Some(14)));
    assert!(Strip::from_bytes(&world.strip).is_ok_and(|strip| strip.bytes()[..] == world.strip));
    for length in [971, 973, 0, rng.below(2_000) + 974] {
        let mut other = good();
        other.strip.resize(length, 0);
        other.refused(1);
        tally.count("strips of other lengths (1)", if length > 973 { "more".to_string() } else { length.to_string() });
    }
    spoilt.numbers = rng.below(rows);
    spoilt.refused(1);
    Handed { numbers: spoilt.numbers, ..good() }.refused(1);
    tally.count("two faults", "answers too short, and no strip (1)");
    let mut court = good();
    court.memory.state[28] = 2;
    court.strip.truncate(971);
    court.refused(14);
    tally.count("two faults", "no state, and a strip of 971 bytes (14)");
    court.memory.slots.push(0);
    court.strip = spoilt.strip;
    court.refused(1);
    tally.count("two faults", "slots too long, and no strip (1)");
}

/// A batch of other columns waits: 30, behind 1 and 14.
fn other_columns(rng: &mut Rng, world: &World, tally: &mut Tally) {
    use Kind::{BinaryView, Int64, UInt8, UInt64, Utf8View};
    let mut kinds = match rng.below(8) {
        0 => vec![UInt64, UInt8, UInt8, BinaryView],
        1 => vec![Int64, UInt8, UInt8, Utf8View],
        2 => vec![UInt64, UInt8, UInt8],
        3 => vec![UInt64, UInt8, UInt8, Utf8View, Utf8View],
        4 => vec![UInt8, UInt64, UInt8, Utf8View],
        5 => vec![UInt64, UInt8, UInt8, UInt8],
        _ => (0..rng.below(17)).map(|_| Kind::of(rng.within(1, 19) as u32).expect("a kind")).collect(),
    };
    if kinds == Strip::KINDS {
        kinds.clear();
    }
    let set_up = SetUp { rows: 8, queue: 2, lists: 4, numbers: 4, pool: 100, ..SetUp::new(&kinds, 3) };
    let mut coalescer = BatchCoalescer::new(&set_up).expect("a court");
    let made: Vec<_> = kinds.iter().map(|kind| if kind.is_view() { views(rng, *kind, 3, &[]) } else { primitive(rng, *kind, 3) }).collect();
    coalescer.push_batch(&batch_of(3, &made)).expect("room for 3 rows");
    let handed = |strip: Vec<u8>, numbers| Handed { memory: coalescer.memory().clone(), strip, numbers };
    handed(world.strip.clone(), 3).refused(30);
    handed(world.strip.clone(), 2).refused(1);
    let mut spoilt = world.strip.clone();
    damaged(rng, &mut spoilt);
    handed(spoilt, 3).refused(14);
    tally.count("other columns (30)", format!("{:2}", kinds.len()));
}

/// A good call: reading leaves the court, taking is reading and then dropping, bytes behind the rows stay, and rows whose numbers rise can
/// be read twice.
fn read_and_take(rng: &mut Rng, world: &World, tally: &mut Tally) {
    let rows = world.front.len();
    let (mut read, mut numbers) = (world.strip.clone(), vec![0xa5; rows + rng.below(4)]);
    let (mut memory, mut dropped) = (world.memory.clone(), world.memory.clone());
    assert_eq!((memory.strip_read(&mut read, &mut numbers), memory == world.memory), (Ok(rows as u32), true));
    let (mut taken, mut taken_numbers) = (world.strip.clone(), vec![0xa5; numbers.len()]);
    assert_eq!(memory.strip_take(&mut taken, &mut taken_numbers), dropped.next_completed_batch());
    assert!(memory == dropped && taken == read && taken_numbers == numbers, "taking is not reading and dropping");
    assert!(numbers[rows..].iter().all(|byte| *byte == 0xa5), "bytes behind the rows were written");
    let mut model = world.model.clone();
    assert!(world.front.iter().map(|row| model.take(row) as u8).eq(numbers[..rows].iter().copied()));
    assert!(model.bytes() == read);
    let rises = world.front.iter().all(|row| row.number.is_some()) && world.front.is_sorted_by(|a, b| a.number < b.number);
    world.memory.strip_read(&mut taken, &mut taken_numbers).expect("read again");
    assert!(!rises || taken == read, "rows that rise were read twice, and the strip is another");
    let name = match (rises, taken == read) {
        (true, _) => "numbers rise: the same",
        (false, true) => "they do not: the same",
        (false, false) => "they do not: another",
    };
    tally.count("read twice", name);
}

/// An empty queue: 0 rows, and the strip is tested all the same.
fn nothing_waits(rng: &mut Rng, world: &World, tally: &mut Tally) {
    let mut memory = world.memory.clone();
    while memory.next_completed_batch().expect("a court") > 0 {}
    let (before, mut strip) = (memory.clone(), world.strip.clone());
    assert_eq!((memory.strip_read(&mut strip, &mut []), memory.strip_take(&mut strip, &mut [])), (Ok(0), Ok(0)));
    assert!(memory == before && strip == world.strip);
    damaged(rng, &mut strip);
    Handed { memory, strip, numbers: 0 }.refused(14);
    tally.count("read twice", "nothing waits: 0 rows");
}

/// All of them, on one world, behind a history that left this strip.
pub fn calls(rng: &mut Rng, begun: &Strip, model: Model, tally: &mut Tally) {
    let world = world(rng, begun, model, tally);
    strips(rng, &world, tally);
    other_columns(rng, &world, tally);
    read_and_take(rng, &world, tally);
    nothing_waits(rng, &world, tally);
}
