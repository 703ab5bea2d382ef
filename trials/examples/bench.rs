//! Times the proved engine beside the second one on the same calls, in one run: `cargo run --release --example bench`.
//!
//! A network grows to its size with joins in flight, each of them begun, withdrawn and begun again; then nodes are looked up in it, and it is judged,
//! surveyed and written, with the counts of its joins, and read back, which in version 1 sets these to zero. Lookups and surveys are also made while every
//! fourth node has failed. Behind that it is read as version 2, with its counts, and written so: these are the rows `read 2` and `write 2`, which a network
//! of 64 nodes with joins under way has as well. Traces are checked in a network of their own, in which every path has nine nodes: as many paths as a file
//! holds, half as many, and none, which leaves the check of the state. A network is filled of which every tenth entry that has somebody beside its owner
//! lacks the last one, and once more when it is whole: each filling follows a reading, so that it finds fresh tables, and the reading is not counted in
//! it. The two engines play this in turn for many rounds; a call counts with its shortest
//! time over the rounds. The share of `sound` in a call is told by further rounds.

use std::hint::black_box;
use std::time::Instant;

use trials::archive::Archive;
use trials::engine::{Engine, Second};
use trials::lent::Lent;
use trials::panel::panels;
use trials::random::{fresh_id, parts, trace_file, with_records, Rng};
use trials::script::{set_of, Call};
use trials::second::memory::{STATE_WORDS, TABLE_BYTES};
use trials::second::network::Network;
use trials::traces::long_ways;

const ROUNDS: usize = 150;
const IN_FLIGHT: usize = 4;

/// Calls that judge the state first; those `without` have failed nodes, and a trace is `of` so many paths.
const JUDGING: [&str; 14] = [
    "begin",
    "withdraw",
    "deliver",
    "lookup",
    "lookup without",
    "verdict",
    "survey",
    "survey without",
    "write",
    "write 2",
    "trace of 255",
    "trace of 127",
    "trace of 0",
    "fill",
];

/// Nodes 4, 8, 12, ..
const EVERY_FOURTH: u64 = 0x8888_8888_8888_8888;

/// A founding, then beginnings, each withdrawn and made again, and deliveries in any order until all nodes are in system.
fn growth(settings: [u64; 3], nodes: usize, rng: &mut Rng) -> Vec<Call> {
    let mut memory = Lent::noise();
    let mut calls = vec![Call::Found { settings, id: 0 }];
    memory.call(&Second, &calls[0]);
    loop {
        let network = Network::decode(memory.used_state());
        let outstanding = network.outstanding();
        let joining = network.iter().filter(|(_, node)| !node.in_system()).count();
        let next = if network.count() < nodes && joining < IN_FLIGHT {
            let id = fresh_id(rng, &network).expect("there are more ids than nodes");
            let begin = Call::Begin { id, gateway: 1 };
            let node = network.count() as u64 + 1;
            vec![begin.clone(), Call::Withdraw { node }, begin]
        } else if outstanding.is_empty() {
            return calls;
        } else {
            let (sender, receiver) = rng.pick(&outstanding);
            let (sender, receiver) = (sender as u64, receiver as u64);
            vec![Call::Deliver { sender, receiver }]
        };
        for call in &next {
            memory.call(&Second, call);
        }
        calls.extend(next);
    }
}

/// The node, or the one before it if it has failed.
fn left(node: u64) -> u64 {
    node - u64::from(EVERY_FOURTH & set_of(&[node]) != 0)
}

/// Calls on the grown network: lookups of each node, and as many of the calls that need no ends; then as many readings.
fn use_of(nodes: usize, image: &[u8], rng: &mut Rng) -> Vec<Call> {
    let numbers = 1..=nodes as u64;
    let calls = numbers.flat_map(|to| {
        let from = rng.between(1, nodes as u64);
        let lookup = |from, to, failed| Call::Lookup { from, to, failed };
        [
            lookup(from, to, 0),
            lookup(left(from), left(to), EVERY_FOURTH),
            Call::Sound,
            Call::Verdict,
            Call::Survey { failed: 0 },
            Call::Survey {
                failed: EVERY_FOURTH,
            },
            Call::WRITE_1,
        ]
    });
    let image = image.to_vec();
    calls.chain(vec![Call::Read { image }; nodes]).collect()
}

/// The image of version 2 read and written, each so often.
fn version_2(image: &[u8], times: usize) -> Vec<Call> {
    let image = image.to_vec();
    let mut calls = vec![Call::Read { image }; times];
    calls.extend(vec![Call::WRITE_2; times]);
    calls
}

/// The calls of a round.
fn round(settings: [u64; 3], nodes: usize) -> Vec<Call> {
    let mut rng = Rng::new(1);
    let mut calls = growth(settings, nodes, &mut rng);
    let mut memory = Lent::noise();
    for call in &calls {
        memory.call(&Second, call);
    }
    let grown = panels(memory.used_state());
    let joined = grown[1..nodes].iter().all(|panel| panel.requests > 1);
    assert!(joined, "each node but the first has sent requests");
    let [first, second] = [1, 2].map(|version| {
        let length = (memory.call(&Second, &Call::Write { version }) >> 8) as usize;
        memory.out[..length].to_vec()
    });
    calls.extend(use_of(nodes, &first, &mut rng));
    calls.extend(version_2(&second, nodes));
    calls
}

/// How many nodes join in the network with joins under way.
const JOINING: usize = 16;

/// Do at least three nodes copy, three wait and three notify?
fn has_all_statuses(memory: &Lent) -> bool {
    let statuses = (1..=64).map(|node| memory.state[8 * node + 1]);
    let count = |status| statuses.clone().filter(|&other| other == status).count();
    [1, 2, 3].into_iter().all(|status| count(status) >= 3)
}

/// The calls of a round on a network of 64 nodes, some of which copy, wait and notify: it is read, then judged, read and written as often as it has nodes.
fn round_of_joins(settings: [u64; 3]) -> Vec<Call> {
    let mut rng = Rng::new(1);
    let mut memory = Lent::noise();
    for call in growth(settings, 64 - JOINING, &mut rng) {
        memory.call(&Second, &call);
    }
    for _ in 0..JOINING {
        let network = Network::decode(memory.used_state());
        let id = fresh_id(&mut rng, &network).expect("there are more ids than nodes");
        memory.call(&Second, &Call::Begin { id, gateway: 1 });
    }
    while !has_all_statuses(&memory) {
        let network = Network::decode(memory.used_state());
        let (sender, receiver) = rng.pick(&network.outstanding());
        let (sender, receiver) = (sender as u64, receiver as u64);
        memory.call(&Second, &Call::Deliver { sender, receiver });
    }
    let length = (memory.call(&Second, &Call::WRITE_2) >> 8) as usize;
    let used = version_2(&memory.out[..length], 64);
    let judged = vec![Call::Sound; 64];
    [&used[..1], &judged, &used[1..]].concat()
}

/// The calls of a round of traces: the network is read, then judged, and traces in it are checked, as often as it has nodes.
fn round_of_traces() -> Vec<Call> {
    let (mut memory, paths) = long_ways();
    assert!(paths.iter().all(|path| path.len() == 9));
    let length = (memory.call(&Second, &Call::WRITE_1) >> 8) as usize;
    let image = memory.out[..length].to_vec();
    let traces = [255, 127, 0].map(|count| trace_file(&paths[..count]));
    let mut calls = vec![Call::Read { image }];
    for _ in 0..64 {
        let traced = traces.clone().map(|trace| Call::Trace { trace });
        for call in [Call::Sound].into_iter().chain(traced) {
            let engines: [&dyn Engine; 2] = [&Archive, &Second];
            let answers = engines.map(|engine| memory.call(engine, &call));
            assert_eq!(answers, [0; 2], "it is accepted");
            calls.push(call);
        }
    }
    calls
}

/// The image of version 1 of a network that has grown to so many nodes.
fn grown_image(settings: [u64; 3], nodes: usize) -> Vec<u8> {
    let mut memory = Lent::noise();
    for call in growth(settings, nodes, &mut Rng::new(1)) {
        memory.call(&Second, &call);
    }
    let length = Call::WRITE_1.written(memory.call(&Second, &Call::WRITE_1));
    memory.out[..length].to_vec()
}

/// The image without the last of every tenth entry that has somebody beside its owner.
fn a_tenth_short(image: &[u8]) -> Vec<u8> {
    let (head, records) = parts(image).expect("it has its counts");
    let entries = records.chunk_by(|one, next| one[..3] == next[..3]);
    let mut others = 0;
    let left = entries.flat_map(|entry| {
        let [node, _, _, last] = entry[entry.len() - 1];
        others += usize::from(node != last);
        let short = node != last && others % 10 == 0;
        entry[..entry.len() - usize::from(short)].to_vec()
    });
    let left: Vec<[u8; 4]> = left.collect();
    with_records(&head, &left)
}

/// The calls of a round of fillings: the network is judged, read and filled as often as it has nodes.
fn round_of_fills(image: &[u8]) -> Vec<Call> {
    let image = image.to_vec();
    let once = [Call::Read { image }, Call::Sound, Call::Fill];
    vec![once; 64].concat()
}

/// How many nodes a filling adds to the network of this image.
fn additions(image: &[u8]) -> u64 {
    let mut memory = Lent::noise();
    for call in &round_of_fills(image)[..2] {
        memory.call(&Second, call);
    }
    memory.call(&Second, &Call::Fill) >> 8
}

/// An engine's shortest time for each call so far, in nanoseconds.
struct Clock<'a> {
    engine: &'a dyn Engine,
    memory: Lent,
    best: Vec<f64>,
}

impl<'a> Clock<'a> {
    fn new(engine: &'a dyn Engine, calls: usize) -> Clock<'a> {
        Clock {
            engine,
            memory: Lent::noise(),
            best: vec![f64::MAX; calls],
        }
    }

    fn play(&mut self, calls: &[Call]) {
        for (call, best) in calls.iter().zip(&mut self.best) {
            let start = Instant::now();
            black_box(self.memory.call(self.engine, black_box(call)));
            *best = best.min(start.elapsed().as_nanos() as f64);
        }
    }

    /// The mean time of the calls at these places.
    fn mean(&self, places: &[usize]) -> f64 {
        let all: f64 = places.iter().map(|&place| self.best[place]).sum();
        all / places.len() as f64
    }
}

/// What part of a judging call `sound` takes, by kind: each call is played after two of `sound`, of which the second finds memory and branches as
/// warm as the call does.
fn shares_of_sound(engine: &dyn Engine, calls: &[Call]) -> [f64; JUDGING.len()] {
    let judged = |call: &Call| [Call::Sound, Call::Sound, call.clone()];
    let calls: Vec<Call> = calls.iter().flat_map(judged).collect();
    let mut clock = Clock::new(engine, calls.len());
    for _ in 0..ROUNDS {
        clock.play(&calls);
    }
    JUDGING.map(|kind| {
        let judged = places(&calls, kind);
        let sound: Vec<usize> = judged.iter().map(|place| place - 1).collect();
        clock.mean(&sound) / clock.mean(&judged)
    })
}

/// One pass over the memory that a call uses: the least that judging a state could take.
fn plain_pass(memory: &Lent) -> f64 {
    let pass = || {
        let words = memory.state[..STATE_WORDS]
            .iter()
            .fold(0, |all, word| all | word);
        let bytes = memory.tables[..TABLE_BYTES]
            .iter()
            .fold(0, |all, byte| all | byte);
        words | u64::from(bytes)
    };
    let time = || {
        let start = Instant::now();
        black_box(pass());
        start.elapsed().as_nanos() as f64
    };
    (0..1_000).map(|_| time()).fold(f64::MAX, f64::min)
}

/// Where calls of this kind are.
fn places(calls: &[Call], kind: &str) -> Vec<usize> {
    let of_kind = |&place: &usize| is_of(&calls[place], kind);
    (0..calls.len()).filter(of_kind).collect()
}

fn is_of(call: &Call, kind: &str) -> bool {
    let named = match call {
        Call::Trace { trace } => Some(format!("trace of {}", trace[0])),
        Call::Write { version: 2 } => Some("write 2".to_string()),
        Call::Read { image } if image[1] == 2 => Some("read 2".to_string()),
        _ => None,
    };
    if let Some(named) = named {
        return kind == named;
    }
    let (name, failed) = match kind.strip_suffix(" without") {
        Some(name) => (name, true),
        None => (kind, false),
    };
    let text = call.to_string();
    text.starts_with(name) && text.contains("without") == failed
}

/// A line for each kind of call that there is.
fn print(calls: &[Call], proved: &Clock, second: &Clock) {
    let shares = shares_of_sound(proved.engine, calls).map(|share| format!("{share:>8.2}"));
    let judging = JUDGING.into_iter().zip(shares);
    let others = ["found", "read", "read 2", "sound"].map(|kind| (kind, String::new()));
    for (kind, share) in others.into_iter().chain(judging) {
        let places = places(calls, kind);
        if places.is_empty() {
            continue;
        }
        let (ours, theirs) = (proved.mean(&places), second.mean(&places));
        let ratio = ours / theirs;
        println!("{kind:<14} {ours:>10.0} {theirs:>10.0} {ratio:>8.2} {share}");
    }
    let pass = plain_pass(&proved.memory);
    let passes = [proved, second].map(|clock| clock.mean(&places(calls, "sound")) / pass);
    println!("{:<14} {pass:>10.0}", "plain pass");
    println!(
        "{:<14} {:>10.1} {:>10.1}",
        "sound/pass", passes[0], passes[1]
    );
}

/// Plays the calls on a network of these settings and nodes by both engines in turn, and prints their times.
fn bench([base, digits, depth]: [u64; 3], nodes: &str, calls: &[Call]) {
    let mut proved = Clock::new(&Archive, calls.len());
    let mut second = Clock::new(&Second, calls.len());
    for _ in 0..ROUNDS {
        proved.play(calls);
        second.play(calls);
    }
    assert!(proved.memory == second.memory, "the engines differ");
    println!("{nodes}, b {base}, d {digits}, K {depth}");
    println!(
        "{:>25} {:>10} {:>8} {:>8}",
        "proved", "second", "ratio", "sound"
    );
    print(calls, &proved, &second);
}

fn main() {
    println!("ns a call, and the share of sound in the proved engine's");
    for (settings, nodes) in [([16, 8, 4], 64), ([4, 4, 2], 64), ([4, 4, 2], 5)] {
        bench(settings, &format!("{nodes} nodes"), &round(settings, nodes));
    }
    for settings in [[16, 8, 4], [4, 4, 2]] {
        let nodes = format!("64 nodes, {JOINING} of them joining");
        bench(settings, &nodes, &round_of_joins(settings));
    }
    bench([2, 8, 4], "64 nodes", &round_of_traces());
    for (settings, nodes) in [([16, 8, 4], 64), ([4, 4, 2], 64), ([4, 4, 2], 5)] {
        let whole = grown_image(settings, nodes);
        for image in [a_tenth_short(&whole), whole] {
            let filled = format!("{nodes} nodes, {} to add", additions(&image));
            bench(settings, &filled, &round_of_fills(&image));
        }
    }
}
