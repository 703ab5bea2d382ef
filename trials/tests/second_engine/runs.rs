//! Random runs: what every call leaves alone, and that runs meet everything.

use std::collections::BTreeSet;

use trials::compare::compare;
use trials::engine::Second;
use trials::lent::Lent;
use trials::random::{damage, run, seeds, Rng};
use trials::script::{Call, Line};
use trials::second::memory::COUNT;
use trials::second::network::Network;
use trials::second::Refusal;

#[test]
fn runs_leave_alone_what_they_must() {
    for seed in seeds(1_000, 200) {
        let (script, _) = run(&mut Rng::new(seed), 200);
        if let Err(difference) = compare(&Second, &Second, &script) {
            panic!("{}", difference.report(seed, &script));
        }
    }
}

#[test]
fn calls_on_damaged_states_leave_alone_what_they_must() {
    for seed in seeds(2_000, 200) {
        let mut rng = Rng::new(seed);
        let (mut script, memory) = run(&mut rng, 60);
        script.lines.push(damage(&mut rng, &memory));
        script.call(Call::Sound);
        script.call(Call::Survey { failed: 0 });
        script.call(Call::Trace { trace: vec![0] });
        script.call(Call::Fill);
        let node = memory.state[COUNT];
        script.call(Call::Withdraw { node });
        let (other, _) = run(&mut rng, 20);
        script.lines.extend_from_slice(&other.lines[1..]);
        if let Err(difference) = compare(&Second, &Second, &script) {
            panic!("{}", difference.report(seed, &script));
        }
    }
}

/// The word a script line starts with.
fn name(line: &Line) -> String {
    let text = line.to_string();
    text.split(' ')
        .next()
        .expect("a line has a word")
        .to_string()
}

/// What the calls of runs are refused by, 0 for a taken one.
const MET: [(&str, &[u64]); 11] = [
    ("found", &[0, 1, 5, 7]),
    ("read", &[0, 1, 3, 4, 5, 6, 7, 8, 9, 10, 17, 18, 24]),
    ("begin", &[0, 1, 7, 8, 9, 11, 12]),
    ("withdraw", &[0, 1, 9, 19, 20]),
    ("deliver", &[0, 1, 9, 13, 14]),
    ("lookup", &[0, 1, 9, 21]),
    ("verdict", &[0, 1, 15]),
    ("write", &[0, 1, 4, 15, 16]),
    ("survey", &[0, 1]),
    ("trace", &[0, 1, 9, 22, 23]),
    ("fill", &[0, 1, 15, 16]),
];

#[test]
fn runs_meet_every_refusal_and_every_kind_of_delivery() {
    let (mut refusals, mut kinds) = (BTreeSet::new(), BTreeSet::new());
    let mut most = 0;
    for seed in 3_000..3_300 {
        let (script, end) = run(&mut Rng::new(seed), 400);
        let mut memory = Lent::noise();
        most = most.max(Network::decode(end.used_state()).count());
        for line in script.lines.iter() {
            let answer = memory.obey(&Second, line);
            refusals.insert((name(line), answer & 0xff));
            if matches!(line, Line::Call(Call::Deliver { .. })) && answer & 0xff == 0 {
                kinds.insert((answer >> 8 & 0xff, answer >> 24 == 1));
            }
        }
    }
    for (call, numbers) in MET {
        for &number in numbers {
            assert!(
                refusals.contains(&(call.to_string(), number)),
                "{call} {number}"
            );
        }
    }
    let all = [
        (1, false),
        (2, false),
        (3, false),
        (3, true),
        (4, false),
        (4, true),
    ];
    assert_eq!(kinds, BTreeSet::from(all));
    assert_eq!(most, 64);
}

/// Lookups that failed nodes turn another way, and lookups that they lose.
#[test]
fn runs_meet_lookups_around_failed_nodes() {
    let (mut around, mut lost) = (0, 0);
    for seed in 4_000..4_200 {
        let (script, _) = run(&mut Rng::new(seed), 300);
        let mut memory = Lent::noise();
        for line in &script.lines {
            let answer = memory.obey(&Second, line);
            if let Line::Call(Call::Lookup { from, to, .. }) = *line {
                let failed = 0;
                let plain = memory.call(&Second, &Call::Lookup { from, to, failed });
                let taken = answer & 0xff == 0 && answer != plain;
                around += usize::from(taken && answer & 0x100 != 0);
                lost += usize::from(taken && answer & 0x100 == 0);
            }
        }
    }
    println!("{around} around, {lost} lost");
    assert!(around > 20 && lost > 20, "{around} around, {lost} lost");
}

/// Traces that are accepted and refused, with many paths, and while nodes join.
#[test]
fn runs_meet_traces() {
    let (mut answers, mut joining) = ([0; Refusal::NUMBERS], 0);
    for seed in 5_000..5_200 {
        let (script, _) = run(&mut Rng::new(seed), 300);
        let mut memory = Lent::noise();
        for line in &script.lines {
            let answer = memory.obey(&Second, line);
            if matches!(line, Line::Call(Call::Trace { .. })) {
                answers[(answer & 0xff) as usize] += 1;
                let network = Network::decode(memory.used_state());
                joining += usize::from(answer == 0 && !network.all_in_system());
            }
        }
    }
    let [accepted, no_node, counts, steps] = [0, 9, 22, 23].map(|number| answers[number]);
    println!(
        "{accepted} accepted, {joining} while nodes join; 9: {no_node}, 22: {counts}, 23: {steps}"
    );
    let enough = [accepted, joining, no_node, counts, steps].map(|met| met > 100);
    assert_eq!(enough, [true; 5]);
}

/// Fillings that add nothing, few and many nodes, and joins after them.
#[test]
fn runs_meet_fillings() {
    let [mut nothing, mut few, mut many, mut joined] = [0; 4];
    for seed in 6_000..6_200 {
        let (script, _) = run(&mut Rng::new(seed), 300);
        let (mut memory, mut filled) = (Lent::noise(), false);
        for line in &script.lines {
            let answer = memory.obey(&Second, line);
            match line {
                Line::Call(Call::Fill) if answer & 0xff == 0 => {
                    nothing += usize::from(answer == 0);
                    few += usize::from((1..10).contains(&(answer >> 8)));
                    many += usize::from(answer >> 8 >= 10);
                    filled |= answer != 0;
                }
                Line::Call(Call::Found { .. } | Call::Read { .. }) if answer == 0 => filled = false,
                Line::Call(Call::Deliver { .. }) if answer >> 24 == 1 => {
                    joined += usize::from(filled);
                }
                _ => {}
            }
        }
    }
    println!("{nothing} add nothing, {few} few, {many} many; {joined} joined after");
    let enough = [nothing, few, many, joined].map(|met| met > 10);
    assert_eq!(enough, [true; 4]);
}
