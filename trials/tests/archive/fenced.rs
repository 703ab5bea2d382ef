//! Lent memory that ends at a page without access, or begins after one, or is NULL where its length is 0: no call reads or
//! writes past what is lent, nor writes what it only looks at, for that would end the process.

use std::ffi::c_int;

use trials::compare::{Difference, Pair};
use trials::engine::Second;
use trials::fenced::{Fenced, FencedArchive, Place};
use trials::lent::{ALL, EXACT};
use trials::paper::{e1_short, E1, JOINING};
use trials::random::{cuts, damaged_trace, image, image_2, image_damages, paths, run};
use trials::random::{run_from_built, seeds, thinned, trace_file, Rng};
use trials::records::{by_hand, long, Judged};
use trials::script::{Call, Lend, Line, Script};
use trials::second::memory::{COUNT, STATE_WORDS, TABLE_BYTES};
use trials::second::Refusal;

use crate::support::{full_image, lent_lengths};

/// Plays the script at each place beside the second engine; the answers, which are the same at each.
fn agree(seed: u64, script: &Script) -> Vec<u64> {
    let answers = Place::ALL.map(|place| {
        let engine = FencedArchive(place);
        let mut pair = Pair::new(&engine, &Second);
        let lines = script.lines.iter().enumerate();
        let answers = lines.map(|(line, obeyed)| {
            pair.obey(obeyed).unwrap_or_else(|what| {
                let report = Difference { line, what }.report(seed, script);
                panic!("{place:?}, {report}")
            })
        });
        answers.collect()
    });
    let [answers, ..] = answers;
    answers
}

/// Just enough memory for every call of the script but where it lends more or less.
fn exactly(script: Script) -> Script {
    let all = Line::Lend(ALL);
    let lines = script.lines.into_iter();
    let lines = lines.map(|line| if line == all { Line::Lend(EXACT) } else { line });
    let lines = [Line::Lend(EXACT)].into_iter().chain(lines).collect();
    Script { lines }
}

#[test]
fn runs_agree_on_exact_memory() {
    for seed in seeds(0, 60) {
        let mut rng = Rng::new(seed);
        let lines = rng.pick(&[50, 200, 400]);
        agree(seed, &exactly(run(&mut rng, lines).0));
        agree(seed, &exactly(run_from_built(&mut rng, 40).0));
    }
}

/// One call of each kind, and of those that take failed nodes one with some; a trace without paths, and one of a path that every network below allows.
fn each_call() -> [Call; 17] {
    let read = |image: &[u8]| Call::Read {
        image: image.to_vec(),
    };
    let trace = |bytes: &[u8]| Call::Trace {
        trace: bytes.to_vec(),
    };
    let settings = [2, 2, 1];
    let (sender, receiver) = (2, 1);
    let lookup = |failed| Call::Lookup {
        from: 1,
        to: 2,
        failed,
    };
    [
        Call::Found { settings, id: 1 },
        read(&E1),
        read(&JOINING),
        Call::Begin { id: 2, gateway: 1 },
        Call::Withdraw { node: 2 },
        Call::Deliver { sender, receiver },
        lookup(0),
        lookup(!3),
        Call::Verdict,
        Call::WRITE_1,
        Call::WRITE_2,
        Call::Sound,
        Call::Survey { failed: 0 },
        Call::Survey { failed: !2 },
        trace(&[0]),
        trace(&[1, 1, 2]),
        Call::Fill,
    ]
}

/// Calls that make a network: of two nodes in system, of two of which one is to be filled, of 64, and of two with a join in flight.
fn networks() -> [Vec<Call>; 4] {
    let (settings, id, gateway) = ([4, 4, 2], 1, 1);
    let full = full_image(&mut Rng::new(1));
    let images = [E1.to_vec(), e1_short(), full];
    let [two, short, full] = images.map(|image| vec![Call::Read { image }]);
    let founding = Call::Found { settings, id: 0 };
    let joining = vec![founding, Call::Begin { id, gateway }];
    [two, short, full, joining]
}

/// The lengths around a fixed one: none, short, exact and longer.
fn around(fixed: usize) -> [usize; 6] {
    [0, 1, fixed - 1, fixed, fixed + 1, fixed + 16]
}

#[test]
fn each_call_agrees_at_every_length() {
    let mut taken = [0; 17];
    for network in networks() {
        for state in around(STATE_WORDS) {
            for tables in around(TABLE_BYTES) {
                for (kind, call) in each_call().into_iter().enumerate() {
                    let mut script = Script::default();
                    script.lines.push(Line::Lend(EXACT));
                    network.iter().for_each(|made| script.call(made.clone()));
                    script.lines.push(Line::Lend(Lend {
                        state,
                        tables,
                        ..EXACT
                    }));
                    script.call(call);
                    let answers = agree(0, &script);
                    taken[kind] += usize::from(answers[answers.len() - 1] & 0xff == 0);
                }
            }
        }
    }
    assert!(taken.iter().all(|&times| times >= 9), "{taken:?}");
}

#[test]
fn writing_agrees_at_every_length_of_the_output() {
    for seed in seeds(100, 30) {
        let rng = &mut Rng::new(seed);
        for (version, image) in [(1, image(rng)), (2, image_2(rng))] {
            let mut script = Script::default();
            script.lines.push(Line::Lend(EXACT));
            let length = image.len();
            script.call(Call::Read { image });
            for out in [0, 1, length / 2, length - 1, length, length + 1, ALL.out] {
                script.lines.push(Line::Lend(Lend { out, ..EXACT }));
                script.call(Call::Write { version });
            }
            agree(seed, &script);
        }
    }
}

#[test]
fn filling_agrees_at_every_length_of_the_list() {
    let mut taken = 0;
    for seed in seeds(500, 30) {
        let rng = &mut Rng::new(seed);
        let whole = image(rng);
        let image = thinned(rng, &whole, 2);
        let length = whole.len() - image.len();
        let mut script = Script::default();
        for out in [0, 1, length / 2, length, length + 1, ALL.out] {
            script.lines.push(Line::Lend(EXACT));
            let image = image.clone();
            script.call(Call::Read { image });
            script.lines.push(Line::Lend(Lend { out, ..EXACT }));
            script.call(Call::Fill);
        }
        let answers = agree(seed, &script);
        taken += answers.iter().filter(|&answer| answer >> 8 != 0).count();
    }
    assert!(taken > 30, "{taken}");
}

#[test]
fn images_of_every_length_are_judged_alike() {
    for seed in seeds(200, 12) {
        let rng = &mut Rng::new(seed);
        for image in [image(rng), image_2(rng)] {
            let mut script = Script::default();
            script.lines.push(Line::Lend(EXACT));
            let step = 1 + image.len() / 200;
            let ends = cuts(&image).take(20).chain(cuts(&image).rev().take(100));
            let images = ends.chain(cuts(&image).step_by(step));
            let images = images.chain([image.clone(), [&image[..], &[0]].concat()]);
            for image in images.chain(image_damages(rng, &image)) {
                script.call(Call::Read { image });
            }
            agree(seed, &script);
        }
    }
}

/// Cut at every byte, one byte longer, and damaged: nothing behind a file is read, whatever its counts say.
#[test]
fn traces_of_every_length_are_judged_alike() {
    let mut answers = [0; Refusal::NUMBERS];
    for seed in seeds(400, 12) {
        let mut rng = Rng::new(seed);
        let (mut script, memory) = run(&mut rng, 60);
        let paths = paths(&mut rng, &memory, 8);
        let count = memory.state[COUNT];
        let file = trace_file(&paths);
        let whole = [file.clone(), [&file[..], &[1]].concat()];
        let damaged = (0..20).map(|_| damaged_trace(&mut rng, &paths, count));
        let files = cuts(&file).chain(whole).chain(damaged);
        let files: Vec<Vec<u8>> = files.collect();
        let before = script.lines.len() + 1;
        files
            .into_iter()
            .for_each(|trace| script.call(Call::Trace { trace }));
        let traced = agree(seed, &exactly(script)).split_off(before);
        traced
            .into_iter()
            .for_each(|answer| answers[answer as usize & 0xff] += 1);
    }
    println!("{answers:?}");
    assert!([0, 9, 22, 23].iter().all(|&number| answers[number] > 10));
}

#[test]
fn refused_records_are_judged_alike() {
    let cases: Vec<Judged> = by_hand().into_iter().chain(long()).collect();
    let mut script = Script::default();
    script.lines.push(Line::Lend(EXACT));
    for case in &cases {
        let image = case.image.clone();
        script.call(Call::Read { image });
    }
    let answers = agree(0, &script);
    assert!(cases.iter().map(Judged::answer).eq(answers[1..].to_vec()));
}

#[test]
fn founding_and_reading_agree_on_any_memory() {
    for seed in seeds(300, 200) {
        let mut rng = Rng::new(seed);
        let (state, tables) = lent_lengths(&mut rng);
        let lend = Line::Lend(Lend {
            state,
            tables,
            ..ALL
        });
        let image = E1.to_vec();
        let lines = [Call::Read { image }, found(&mut rng)].map(Line::Call);
        let lines = [lend].into_iter().chain(lines).collect();
        agree(seed, &Script { lines });
    }
}

fn found(rng: &mut Rng) -> Call {
    let settings = [2 + rng.below(15), 1 + rng.below(8), 1 + rng.below(4)];
    Call::Found {
        settings: settings.map(|number| number as u64),
        id: 1,
    }
}

extern "C" {
    fn fork() -> c_int;
    fn waitpid(process: c_int, status: *mut c_int, options: c_int) -> c_int;
    fn _exit(status: c_int) -> !;
}

const BAD_ACCESS: c_int = 11;

/// The signal that ends a copy of this process at what it does, 0 if none does.
fn signal_at(does: impl FnOnce()) -> c_int {
    let mut status = 0;
    // SAFETY: the copy does that one thing and leaves.
    unsafe {
        let copy = fork();
        if copy == 0 {
            does();
            _exit(0);
        }
        assert_eq!(waitpid(copy, &mut status, 0), copy);
    }
    status & 0x7f
}

// SAFETY of the two: a copy of the process does it, which a bad access ends.
fn signal_at_read(at: *const u8) -> c_int {
    signal_at(|| _ = unsafe { at.read_volatile() })
}

fn signal_at_write(at: *mut u8) -> c_int {
    signal_at(|| unsafe { at.write_volatile(1) })
}

/// What the trials above rest on.
#[test]
fn an_access_past_fenced_memory_ends_the_process() {
    let bytes = [7; 5_000];
    let before = Fenced::new(Place::Before, &bytes);
    let end = before.pointer().wrapping_add(bytes.len());
    assert_eq!(signal_at_read(end.wrapping_sub(1)), 0);
    assert_eq!(signal_at_read(end), BAD_ACCESS);
    assert_eq!(signal_at_write(end.wrapping_sub(1)), 0);
    assert_eq!(signal_at_write(end), BAD_ACCESS);

    let after = Fenced::new(Place::After, &bytes);
    assert_eq!(signal_at_write(after.pointer()), 0);
    assert_eq!(signal_at_write(after.pointer().wrapping_sub(1)), BAD_ACCESS);

    let constant = Fenced::constant(Place::After, &bytes);
    assert_eq!(signal_at_read(constant.pointer()), 0);
    assert_eq!(signal_at_write(constant.pointer()), BAD_ACCESS);

    for place in Place::ALL {
        assert_eq!(
            signal_at_read(Fenced::new(place, &[]).pointer()),
            BAD_ACCESS
        );
    }
}
