//! One call made of the port and of the model: the answer and every byte after it compared; and the counts of what was refused.

use puffwidget::Memory;
use puffwidget::layout::word;
use runs::model::{Answer, CLAUSES, Call, Counts, Refused, called, counts};
use std::collections::BTreeMap;

/// The calls' names, by `place`.
const NAMES: [&str; 10] = ["set-up", "push", "finish", "drop", "register", "let go", "read row", "read buffer", "limit", "counts"];

fn place(call: &Call) -> usize {
    match call {
        Call::SetUp(..) => 0,
        Call::Push { .. } => 1,
        Call::Finish => 2,
        Call::Drop => 3,
        Call::Register(..) => 4,
        Call::LetGo(_) => 5,
        Call::ReadRow(..) => 6,
        Call::ReadBuffer(_) => 7,
        Call::Limit(_) => 8,
        Call::Counts => 9,
    }
}

/// What the port answers, or the number of its refusal.
fn made(call: &Call, memory: &mut Memory) -> Result<Answer, u32> {
    let done = |result: Result<(), u32>| result.map(|()| Answer::Done);
    match call {
        Call::SetUp(kinds, [t, r, q, b, n]) => done(memory.set_up(kinds, *t, *r, *q, *b, *n)),
        Call::Push { records, body, rows } => done(memory.push_batch(records, body, *rows)),
        Call::Finish => done(memory.finish_buffered_batch()),
        Call::Drop => memory.next_completed_batch().map(Answer::Rows),
        Call::Register(bytes, capacity) => memory.register_buffer(bytes, *capacity).map(Answer::Number),
        Call::LetGo(buffer) => done(memory.let_go(*buffer)),
        Call::ReadRow(column, row) => memory.read_row(*column, *row).map(Answer::Row),
        Call::ReadBuffer(buffer) => part(memory, *buffer).map(Answer::Part),
        Call::Limit(limit) => done(memory.set_biggest_coalesce_batch_size(*limit)),
        Call::Counts => Ok(Answer::Counts(counted(memory))),
    }
}

/// The part that a read hands back, "an empty part" where it is refused; nothing is written behind it.
fn part(memory: &Memory, buffer: u32) -> Result<Vec<u8>, u32> {
    let length = memory.read_buffer(buffer, &mut []) as usize;
    let mut out = vec![0xa5; length + 3];
    assert_eq!(memory.read_buffer(buffer, &mut out) as usize, length, "two reads, two lengths");
    assert_eq!(out[length..], [0xa5; 3], "a read wrote behind its part");
    out.truncate(length);
    let refusal = memory.buffer_refusal(buffer);
    assert!(refusal.is_ok() || out.is_empty(), "a refused read hands back bytes");
    refusal.map(|()| out)
}

/// The calls that work on the state alone "and refuse nothing".
fn counted(memory: &Memory) -> Counts {
    let (limit, buffered) = (memory.biggest_coalesce_batch_size(), memory.get_buffered_rows());
    Counts { limit, buffered, completed: memory.has_completed_batch(), empty: memory.is_empty() }
}

/// The first byte of each memory that differs.
fn first_differences(port: &Memory, model: &Memory) -> String {
    let pairs = [
        ("state", &port.state, &model.state),
        ("slots", &port.slots, &model.slots),
        ("pool", &port.pool, &model.pool),
        ("books", &port.books, &model.books),
    ];
    let first = |(name, port, model): (&str, &Vec<u8>, &Vec<u8>)| {
        let at = (0..port.len()).find(|at| port[*at] != model[*at])?;
        Some(format!("{name} at {at}: the port has {}, the model {}", port[at], model[at]))
    };
    let all: Vec<String> = pairs.into_iter().filter_map(first).collect();
    if all.is_empty() { "no byte differs".to_string() } else { all.join("; ") }
}

/// What was called and what was refused.
#[derive(Default)]
pub struct Tally {
    /// the history that is running
    pub seed: u64,
    pub histories: u64,
    pub calls: u64,
    /// calls of which the number was also foretold by the damage itself
    pub foretold: u64,
    /// calls with two faults at once, by their numbers, 0 where one is not foretold; the first must name it
    pub pairs: BTreeMap<[u32; 2], u64>,
    /// by place damaged
    pub places: BTreeMap<&'static str, u64>,
    /// by 01's words
    pub clauses: BTreeMap<(u32, &'static str), u64>,
    refused: [[u64; 15]; 10],
}

impl Tally {
    /// Makes a call and compares: the port's answer or number is the model's, and the foretold number where there is one, and every byte of
    /// state, slots, pool and books is as the model has it, which after a refusal is as it was. Anything else ends the run.
    pub fn check(&mut self, memory: &mut Memory, call: &Call, foretold: Option<u32>, why: &'static str) -> Result<Answer, u32> {
        let before = memory.clone();
        let (wanted, after, refused) = match called(memory, call) {
            Ok((answer, after)) => (Ok(answer), after, None),
            Err(refused) => (Err(refused.number), before.clone(), Some(refused)),
        };
        let counts_same = counted(memory) == counts(&memory.state);
        let answer = made(call, memory);
        self.count(call, refused, foretold, why);
        let same = *memory == after;
        let as_foretold = foretold.is_none_or(|number| number == answer.as_ref().err().copied().unwrap_or(0));
        if answer != wanted || !as_foretold || !counts_same || !same {
            println!("DIFFERENT in the history of seed {}; replay: damaged one {}", self.seed, self.seed);
            println!("{why}: the port answers {answer:?}, the model {wanted:?} ({refused:?}), the damage foretells {foretold:?}");
            println!("counts as the model's: {counts_same}; {}", first_differences(memory, &after));
            let words = |bytes: &[u8]| bytes.chunks_exact(4).map(|chunk| word(chunk, 0)).collect::<Vec<_>>();
            println!("{call:?}\nstate {:?}\nbooks {:?}", words(&before.state), words(&before.books));
            std::process::exit(1);
        }
        answer
    }

    /// Counts a call.
    pub fn count(&mut self, call: &Call, refused: Option<Refused>, foretold: Option<u32>, why: &'static str) {
        self.calls += 1;
        self.foretold += foretold.is_some() as u64;
        self.refused[place(call)][refused.map_or(0, |refused| refused.number as usize)] += 1;
        *self.places.entry(why).or_default() += 1;
        if let Some(refused) = refused {
            *self.clauses.entry((refused.number, refused.clause)).or_default() += 1;
        }
    }

    fn of_number(&self, n: usize) -> u64 {
        self.refused.iter().map(|row| row[n]).sum()
    }

    /// The table; every number but 8 must have come.
    pub fn print(&self) {
        let line = |count: &dyn Fn(usize) -> u64| -> String {
            let some: Vec<String> = (1..15).filter(|n| count(*n) > 0).map(|n| format!("{n}: {}", count(n))).collect();
            some.join(", ")
        };
        println!("{} calls not refused; refusals by number: {}", self.of_number(0), line(&|n| self.of_number(n)));
        for (name, row) in NAMES.iter().zip(&self.refused).filter(|(_, row)| row.iter().sum::<u64>() > 0) {
            println!("  {name}: {} calls, {} not refused; {}", row.iter().sum::<u64>(), row[0], line(&|n| row[n]));
        }
        let rarest = self.places.iter().min_by_key(|(_, count)| **count).expect("a place");
        println!("{} sorts of damage and of calls, the rarest ({}) {} times", self.places.len(), rarest.0, rarest.1);
        let rarest = self.clauses.iter().min_by_key(|(_, count)| **count).expect("a clause");
        println!("{} of {CLAUSES} clauses refused, the rarest ({:?}) {} times", self.clauses.len(), rarest.0, rarest.1);
        println!("{} numbers also foretold by the damage", self.foretold);
        let pairs = self.pairs.iter().filter(|(numbers, _)| !numbers.contains(&0));
        let pairs: Vec<String> = pairs.map(|([first, second], count)| format!("{first}+{second}: {count}")).collect();
        println!("two faults at once, the first named: {}", pairs.join(", "));
    }

    /// Every number 1 to 14 came. 8 ("a copied row would start past 4,294,967,295") can't: a block lies in the pool, which has at most
    /// 4,294,967,295 bytes, so every row of it starts below that.
    pub fn assert_all_came(&self) {
        for n in (1..15).filter(|n| *n != 8) {
            assert!(self.of_number(n) > 0, "no call was refused with {n}");
        }
        assert_eq!(self.of_number(8), 0, "8 can't arise");
    }
}
