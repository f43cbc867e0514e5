//! Damaged calls: histories from a seed, at each step valid calls and damaged ones, each compared with the plain model of 01.
//!
//! `damaged [CALLS [SEED]]` runs until so many calls were compared, 200,000 where nothing is said; `damaged stale [CALLS [SEED]]` until so
//! many were made with an older state of the same history; `damaged one SEED` replays one history. Compared is the answer or the number, and
//! every byte of state, slots, pool and books after the call, refused or not. Damaged calls work on clones.

mod calls;
mod damage;
mod world;

use calls::Tally;
use damage::Damage;
use puffwidget::Memory;
use runs::model::Call;
use runs::rng::Rng;
use world::World;

const STALE: &str = "an older state over the memory of now";

/// How many calls earlier a state may have been kept.
const KEPT: usize = 20;

/// A call of any sort on memory that will be damaged; set-up is apart.
fn any_call(rng: &mut Rng, world: &World, push: &Call) -> Call {
    let number = rng.below(world.set_up.numbers as usize + 1) as u32;
    match rng.below(12) {
        0 => Call::Finish,
        1 => Call::Drop,
        2 => Call::Register(rng.bytes(3), 3 + rng.below(40) as u32),
        3 => Call::LetGo(number),
        4 => world.read_row(rng),
        5 => Call::ReadBuffer(number),
        6 => Call::Limit((!rng.one_in(3)).then_some(number)),
        _ => push.clone(),
    }
}

/// A damage that can be made here; the seed may have to be asked again.
fn found(rng: &mut Rng, one: impl Fn(&mut Rng) -> Option<Damage>) -> Damage {
    (0..).find_map(|_| one(rng)).expect("some damage")
}

/// Makes a damaged call on a clone.
fn make(world: &World, mut call: Call, damage: &Damage, tally: &mut Tally) {
    let mut memory: Memory = world.memory.clone();
    damage.apply(&mut memory, &mut call);
    // the limit's setter refuses nothing but bytes that are no state
    let foretold = if matches!(call, Call::Limit(_)) { Some((memory.state.len() != 304) as u32) } else { damage.number };
    let _ = tally.check(&mut memory, &call, foretold, damage.name);
}

/// Memory damaged, in one place or in two, then a call of any sort.
fn damaged_memory(rng: &mut Rng, world: &World, push: &Call, tally: &mut Tally) {
    let one = |rng: &mut Rng| found(rng, |rng| damage::memory::damage(rng, &world.memory));
    let damage = if rng.one_in(4) { damage::both(one(rng), one(rng)).0 } else { one(rng) };
    let call = any_call(rng, world, push);
    make(world, call, &damage, tally);
}

/// No byte is damaged: the state is one that this very history left some calls earlier, over the memory of now.
fn stale(rng: &mut Rng, world: &World, earlier: &[Vec<u8>], push: &Call, tally: &mut Tally) {
    let mut memory: Memory = world.memory.clone();
    memory.state = earlier[rng.below(earlier.len())].clone();
    let call = any_call(rng, world, push);
    let _ = tally.check(&mut memory, &call, None, STALE);
}

/// A batch damaged, then pushed.
fn damaged_batch(rng: &mut Rng, world: &World, push: &Call, tally: &mut Tally) {
    let damage = found(rng, |rng| damage::batch::damage(rng, &world.memory, push));
    make(world, push.clone(), &damage, tally);
}

/// Two faults in one push.
fn two_faults(rng: &mut Rng, world: &World, push: &Call, tally: &mut Tally) {
    let one = |rng: &mut Rng| match rng.below(4) {
        0 => damage::memory::damage(rng, &world.memory),
        _ => damage::batch::damage(rng, &world.memory, push),
    };
    let (pair, numbers) = damage::both(found(rng, one), found(rng, one));
    *tally.pairs.entry(numbers).or_default() += 1;
    make(world, push.clone(), &pair, tally);
}

/// One damaged call, or a few, on clones.
fn damaged(rng: &mut Rng, world: &World, push: &Call, tally: &mut Tally) {
    match rng.below(36) {
        0 | 1 => damage::calls::set_up_bound(rng, tally),
        2 | 3 => damage::calls::not_there(rng, world, tally),
        4 => damage::calls::outside_list(rng, world, tally),
        5 => damage::room::register_edges(rng, world, tally),
        6 | 7 => damage::room::list_edges(rng, world, tally),
        8 if rng.one_in(3) => damage::room::queue_edges(rng, world, tally),
        8 => damage::walks::walks(rng, tally),
        9 => damage::room::block_edges(rng, world, tally),
        10 => damage::room::walk_edges(rng, world, tally),
        11..=18 => damaged_memory(rng, world, push, tally),
        19..=25 => two_faults(rng, world, push, tally),
        _ => damaged_batch(rng, world, push, tally),
    }
}

/// A history from its seed, with eight calls on clones behind each of its own.
fn history(seed: u64, only_stale: bool, tally: &mut Tally) {
    let mut rng = Rng::new(seed);
    tally.seed = seed;
    let mut world = World::new(&mut rng, tally);
    let mut earlier: Vec<Vec<u8>> = vec![world.memory.state.clone()];
    for _ in 0..rng.within(6, 24) {
        let call = world.call(&mut rng, tally);
        let _ = world.make(&call, tally);
        if rng.below(4) > 0 {
            world.let_some_go(&mut rng, tally);
        }
        let push = world.push(&mut rng, tally);
        for _ in 0..8 {
            match only_stale || rng.one_in(8) {
                true => stale(&mut rng, &world, &earlier, &push, tally),
                false => damaged(&mut rng, &world, &push, tally),
            }
        }
        earlier.insert(0, world.memory.state.clone());
        earlier.truncate(KEPT);
    }
    tally.histories += 1;
}

fn main() {
    let arguments: Vec<String> = std::env::args().skip(1).collect();
    let number = |i: usize, other: u64| arguments.get(i).map_or(other, |text| text.parse().expect("a number"));
    let mut tally = Tally::default();
    if arguments.first().is_some_and(|word| word == "one") {
        history(number(1, 0), arguments.get(2).is_some_and(|word| word == "stale"), &mut tally);
        println!("one history: {} calls, all as the model says", tally.calls);
        return;
    }
    let only_stale = arguments.first().is_some_and(|word| word == "stale");
    let (calls, first) = (number(only_stale as usize, 200_000), number(1 + only_stale as usize, 1));
    let started = std::time::Instant::now();
    damage::calls::largest_pool(&mut tally);
    let mut seed = first * 1_000_000_000;
    let made = |tally: &Tally| if only_stale { tally.places.get(STALE).copied().unwrap_or(0) } else { tally.calls };
    while made(&tally) < calls {
        let outcome = std::panic::catch_unwind(std::panic::AssertUnwindSafe(|| history(seed, only_stale, &mut tally)));
        if outcome.is_err() {
            println!("STOPPED in the history of seed {seed}; replay: damaged one {seed}");
            std::process::exit(1);
        }
        seed += 1;
    }
    println!(
        "seed {first}: {} histories, {} calls compared, each answer and every byte after it as the model says",
        tally.histories, tally.calls
    );
    println!("refused calls changed no byte; {} calls were made with an older state", tally.places.get(STALE).copied().unwrap_or(0));
    tally.print();
    if !only_stale {
        tally.assert_all_came();
    }
    println!("{:.1} s", started.elapsed().as_secs_f64());
}
