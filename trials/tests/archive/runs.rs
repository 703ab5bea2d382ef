//! Random runs with many joins in flight, a quarter of the calls bad.

use trials::archive::Archive;
use trials::compare::compare;
use trials::engine::Second;
use trials::lent::Lent;
use trials::random::{damage, image, judging_calls, run, run_from_built, run_in, seeds, Rng};
use trials::script::{Call, Line, Script};
use trials::second::network::Network;
use trials::second::Settings;

fn agree(seed: u64, script: &Script) {
    if let Err(difference) = compare(&Archive, &Second, script) {
        panic!("{}", difference.report(seed, script));
    }
}

#[test]
fn runs_agree() {
    for seed in seeds(0, 800) {
        let mut rng = Rng::new(seed);
        let lines = rng.pick(&[50, 200, 800]);
        agree(seed, &run(&mut rng, lines).0);
    }
}

#[test]
fn runs_in_every_setting_agree() {
    let settings = (2..=16).flat_map(|base| {
        (1..=8).flat_map(move |digits| (1..=4).map(move |depth| (base, digits, depth)))
    });
    for (seed, (base, digits, depth)) in seeds(10_000, 480).zip(settings.cycle()) {
        let settings = Settings::new(base, digits, depth).expect("in range");
        agree(seed, &run_in(&mut Rng::new(seed), settings, 250).0);
    }
}

#[test]
fn runs_from_any_sound_state_agree() {
    for seed in seeds(20_000, 600) {
        agree(seed, &run_from_built(&mut Rng::new(seed), 100).0);
    }
}

/// The line that undoes a damage.
fn undone(line: &Line, memory: &Lent) -> Line {
    match *line {
        Line::Byte { place, .. } => Line::Byte {
            place,
            value: memory.tables[place],
        },
        Line::Word { place, .. } => Line::Word {
            place,
            value: memory.state[place],
        },
        _ => unreachable!("damage is a word or a byte"),
    }
}

#[test]
fn calls_on_damaged_states_agree() {
    for seed in seeds(30_000, 600) {
        let mut rng = Rng::new(seed);
        let (mut script, memory) = run(&mut rng, 60);
        let network = Network::decode(memory.used_state());
        for _ in 0..12 {
            let line = damage(&mut rng, &memory);
            let undo = undone(&line, &memory);
            script.lines.push(line);
            judging_calls(&mut rng, &network)
                .into_iter()
                .for_each(|call| script.call(call));
            script.lines.push(undo);
        }
        script.lines.push(damage(&mut rng, &memory));
        let image = image(&mut rng);
        script.call(Call::Read { image });
        script.call(Call::Verdict);
        script.call(Call::WRITE_1);
        agree(seed, &script);
    }
}
