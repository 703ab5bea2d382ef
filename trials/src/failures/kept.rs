//! Where a network passes the verdict, a lookup between two of its nodes, with any nodes failed, arrived or lost, goes the same way ever after: later joins
//! and withdrawals change neither its very hops nor its answer. Where it does not, they may.

use super::networks::shortened;
use super::{joined, Literal, Way};
use crate::compare::Pair;
use crate::engine::Engine;
use crate::lent::Lent;
use crate::met::{meet, Met};
use crate::random::{all_nodes, failed_set, seeds, Rng};
use crate::script::{set_of, Call};
use crate::second::memory::COUNT;
use crate::steps::{beginning, call, delivery_of_others, expect, network};
use crate::surveys::left;

/// Settings, and how many nodes pass the verdict.
const NETWORKS: [([u64; 3], usize); 8] = [
    ([2, 4, 1], 5),
    ([2, 4, 2], 6),
    ([2, 5, 3], 6),
    ([2, 6, 4], 6),
    ([3, 4, 2], 5),
    ([16, 8, 3], 6),
    ([4, 4, 2], 24),
    ([2, 8, 3], 40),
];

/// How many nodes a network has at most of which every set fails.
const FEW: usize = 6;

/// A lookup and its way.
pub struct Kept {
    pub from: u64,
    pub to: u64,
    pub failed: u64,
    pub way: Way,
}

pub fn kept(a: &dyn Engine, b: &dyn Engine) -> Result<Met, String> {
    let mut met = Met::new();
    for (seed, (settings, nodes)) in seeds(3_000, 16).zip(NETWORKS.into_iter().cycle()) {
        let mut rng = Rng::new(seed);
        let memory = joined(&mut rng, settings, nodes);
        let mut pair = Pair::new(a, b);
        pair.restore(&memory.state, &memory.tables);
        let played = expect(&mut pair, Call::Verdict, 0x100)
            .and_then(|()| play(&mut pair, [a, b], &mut rng, &mut met));
        played.map_err(|what| format!("seed {seed}, {settings:?}: {what}"))?;
    }
    Ok(met)
}

/// In how many of so many networks that do not pass the verdict some lookup changes.
pub fn changed(a: &dyn Engine, b: &dyn Engine) -> [usize; 2] {
    let (mut changed, mut all) = (0, 0);
    for (seed, (settings, nodes)) in seeds(3_500, 16).zip(NETWORKS.into_iter().cycle()) {
        let mut rng = Rng::new(seed);
        let whole = joined(&mut rng, settings, nodes);
        let mut memory = shortened(&mut rng, &whole);
        let mut pair = Pair::new(a, b);
        pair.restore(&memory.state, &memory.tables);
        if memory.call(a, &Call::Verdict) != 0x100 {
            let played = play(&mut pair, [a, b], &mut rng, &mut Met::new());
            changed += usize::from(played.is_err());
            all += 1;
        }
    }
    [changed, all]
}

/// Some of the lookups are tried after each step, and all at the end.
fn play(
    pair: &mut Pair,
    engines: [&dyn Engine; 2],
    rng: &mut Rng,
    met: &mut Met,
) -> Result<(), String> {
    let all = lookups(rng, pair.memory());
    let joining = network(pair).count() + 8;
    let mut scratch = pair.memory().clone();
    for step in 0..80 {
        step_on(pair, rng, joining, met)?;
        scratch.clone_from(pair.memory());
        for kept in all.iter().skip(step % 16).step_by(16) {
            stands(engines, &mut scratch, kept)?;
        }
    }
    for kept in &all {
        stands(engines, &mut scratch, kept)?;
        meet(met, if kept.way.arrived { "arrived" } else { "lost" });
    }
    Ok(())
}

/// A join begun, withdrawn or brought on.
pub fn step_on(pair: &mut Pair, rng: &mut Rng, most: usize, met: &mut Met) -> Result<(), String> {
    let network = network(pair);
    let begin = beginning(rng, &network).filter(|_| network.count() < most && rng.once_in(3));
    let deliver = delivery_of_others(rng, &network, 0);
    let (highest, node) = (network.node(network.count()), network.count() as u64);
    let made = match (begin, deliver) {
        (Some(begin), _) => begin,
        (None, _) if highest.joining() && rng.once_in(12) => Call::Withdraw { node },
        (None, Some(deliver)) => deliver,
        (None, None) => Call::Verdict,
    };
    let answer = call(pair, made.clone())?;
    match made {
        Call::Begin { .. } => meet(met, "begun"),
        Call::Withdraw { .. } => meet(met, "withdrawn"),
        Call::Deliver { .. } if answer >> 24 == 1 => meet(met, "settled"),
        _ => {}
    }
    Ok(())
}

/// Every two nodes of few with every set of them, at times with numbers that nodes may have later; of many some, with some sets, often of a whole entry.
pub fn lookups(rng: &mut Rng, memory: &Lent) -> Vec<Kept> {
    let count = memory.state[COUNT] as usize;
    let nodes = all_nodes(count);
    let mut all = vec![];
    if count <= FEW {
        for set in 0..=nodes {
            let word = rng.word();
            let failed = set | rng.pick(&[0, !nodes, word & !nodes]);
            for from in left(memory.used_state(), failed) {
                let tos = left(memory.used_state(), failed);
                all.extend(tos.map(|to| Kept::new(memory, [from, to], failed)));
            }
        }
        return all;
    }
    for _ in 0..1_000 {
        let [from, to] = [0; 2].map(|_| rng.between(1, count as u64));
        let entry = Literal::new(memory, 0).entry(from, to);
        let set = failed_set(rng, count) | rng.pick(&[0, set_of(&entry)]);
        all.push(Kept::new(memory, [from, to], set & !set_of(&[from, to])));
    }
    all
}

impl Kept {
    fn new(memory: &Lent, [from, to]: [u64; 2], failed: u64) -> Kept {
        let way = Literal::new(memory, failed).way(from, to);
        Kept {
            from,
            to,
            failed,
            way,
        }
    }
}

/// The way and the engines' answers are what they were.
pub fn stands(engines: [&dyn Engine; 2], memory: &mut Lent, kept: &Kept) -> Result<(), String> {
    let &Kept {
        from,
        to,
        failed,
        ref way,
    } = kept;
    let now = Literal::new(memory, failed).way(from, to);
    let looked_up = Call::Lookup { from, to, failed };
    let answers = engines.map(|engine| memory.call(engine, &looked_up));
    if now != *way || answers != [way.answer(); 2] {
        return Err(format!(
            "{looked_up} went {way:?}, goes {now:?}, answers {answers:x?}"
        ));
    }
    Ok(())
}
