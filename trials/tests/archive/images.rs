//! Images: both engines take or refuse each alike, load it alike, judge it alike and write it back.

use trials::archive::Archive;
use trials::compare::Pair;
use trials::engine::Second;
use trials::lent::ALL;
use trials::random::{changed_bytes, changed_records, cuts, image, image_2, image_damages};
use trials::random::{seeds, with_records, Rng, READING, READING_2};
use trials::script::{Call, Lend, Line};
use trials::second::Refusal;

use crate::support::{full_image, Both};

/// Both engines on one memory, and how often each refusal and each verdict was met, 15 too.
struct Reader {
    pair: Pair<'static>,
    seed: u64,
    refusals: [usize; Refusal::NUMBERS],
    consistent: usize,
    not: usize,
    joining: usize,
}

impl Reader {
    fn new() -> Reader {
        Reader {
            pair: Pair::new(&Archive, &Second),
            seed: 0,
            refusals: [0; Refusal::NUMBERS],
            consistent: 0,
            not: 0,
            joining: 0,
        }
    }

    fn call(&mut self, call: Call, image: &[u8]) -> u64 {
        let answer = self.pair.obey(&Line::Call(call));
        answer.unwrap_or_else(|what| {
            let image = image.to_vec();
            panic!("seed {}\n{}\n{what}", self.seed, Call::Read { image })
        })
    }

    /// Reads over what the memory holds; the packed answer. A taken image is judged, and written back byte for byte in its own version.
    fn read(&mut self, image: &[u8]) -> u64 {
        let read = Call::Read {
            image: image.to_vec(),
        };
        let answer = self.call(read, image);
        self.refusals[(answer & 0xff) as usize] += 1;
        if answer == 0 {
            let verdict = self.call(Call::Verdict, image);
            self.consistent += usize::from(verdict == 0x100);
            self.not += usize::from(verdict & 0xffff == 0);
            self.joining += usize::from(verdict == 15);
            let version = image[1].into();
            let length = self.call(Call::Write { version }, image) >> 8;
            assert_eq!(self.pair.memory().out[..length as usize], *image);
        }
        answer
    }

    fn read_each(&mut self, images: impl IntoIterator<Item = Vec<u8>>) {
        for image in images {
            self.read(&image);
        }
    }

    /// Each of these more than so often.
    fn met_each(&self, refusals: &[usize], times: usize) {
        let often = |&refusal: &usize| self.refusals[refusal] > times;
        assert!(refusals.iter().all(often), "{:?}", self.refusals);
    }
}

/// Images of a version, and what reading them damaged can answer.
type Made = (fn(&mut Rng) -> Vec<u8>, &'static [usize]);

/// Of each version.
const VERSIONS: [Made; 2] = [(image, &READING), (image_2, &READING_2)];

/// Of each version and seed an image that `damage` has read damaged; each answer that reading can give is met.
fn damaged_of_each_version(first: u64, count: u64, damage: impl Fn(&mut Reader, &mut Rng, &[u8])) {
    for (made, answers) in VERSIONS {
        let mut reader = Reader::new();
        for seed in seeds(first, count) {
            reader.seed = seed;
            let mut rng = Rng::new(seed);
            let image = made(&mut rng);
            damage(&mut reader, &mut rng, &image);
        }
        reader.met_each(answers, 10);
    }
}

#[test]
fn images_of_runs_are_taken_and_written_back() {
    let mut reader = Reader::new();
    for seed in seeds(0, 300) {
        reader.seed = seed;
        for (made, _) in VERSIONS {
            assert_eq!(reader.read(&made(&mut Rng::new(seed))), 0, "seed {seed}");
        }
    }
    let (consistent, joining) = (reader.consistent, reader.joining);
    assert!(consistent > 250 && joining > 150, "{consistent}, {joining}");
}

#[test]
fn images_cut_at_every_byte_are_refused() {
    let mut reader = Reader::new();
    for seed in seeds(0, 40) {
        reader.seed = seed;
        for (made, _) in VERSIONS {
            for cut in cuts(&made(&mut Rng::new(seed))) {
                let refusal = reader.read(&cut);
                assert_eq!(refusal, if cut.len() < 5 { 3 } else { 6 }, "seed {seed}");
            }
        }
    }
}

#[test]
fn images_with_each_byte_changed_are_judged_alike() {
    damaged_of_each_version(0, 60, |reader, rng, image| {
        if image.len() < 2_000 {
            reader.read_each(changed_bytes(rng, image));
        }
    });
}

/// A few bytes changed at once, so that several sentences may hold.
fn bytes_changed(rng: &mut Rng, image: &[u8]) -> Vec<u8> {
    let mut changed = image.to_vec();
    for _ in 0..rng.between(2, 4) {
        let before_records = 8 + 4 * usize::from(image[5]);
        let place = match rng.below(8) {
            0 => rng.below(6),
            1..=3 => rng.below(before_records),
            _ => rng.below(image.len()),
        };
        changed[place] = rng.pick(&[0, 1, 2, 3, 4, 15, 64, 65, 255]);
    }
    changed
}

#[test]
fn images_with_several_bytes_changed_are_judged_alike() {
    damaged_of_each_version(600, 150, |reader, rng, image| {
        for _ in 0..100 {
            reader.read(&bytes_changed(rng, image));
        }
    });
}

#[test]
fn images_with_records_changed_are_judged_alike() {
    let mut reader = Reader::new();
    for seed in seeds(100, 60) {
        reader.seed = seed;
        let image = image(&mut Rng::new(seed));
        if image.len() < 6_000 {
            reader.read_each(changed_records(&image));
        }
    }
    reader.met_each(&[0, 10, 17, 18], 500);
    assert!(reader.not > 1_000, "{} not consistent", reader.not);
}

#[test]
fn damaged_images_are_judged_alike() {
    damaged_of_each_version(200, 150, |reader, rng, image| {
        for _ in 0..10 {
            reader.read_each(image_damages(rng, image));
        }
    });
}

#[test]
fn damaged_images_of_full_networks_are_judged_alike() {
    let mut reader = Reader::new();
    for seed in seeds(300, 4) {
        reader.seed = seed;
        let mut rng = Rng::new(seed);
        let image = full_image(&mut rng);
        assert_eq!(image[5], 64);
        assert_eq!(reader.read(&image), 0);
        reader.read_each(changed_records(&image).step_by(rng.pick(&[7, 11, 13])));
        for _ in 0..40 {
            reader.read_each(image_damages(&mut rng, &image));
        }
    }
    reader.met_each(&[0, 10, 17, 18], 100);
}

/// One byte more, thousands more, and as many records as the counts can say.
#[test]
fn overlong_images_are_refused() {
    let mut reader = Reader::new();
    for seed in seeds(400, 30) {
        reader.seed = seed;
        let image = image(&mut Rng::new(seed));
        for more in [1, 2, 3, 4, 5, 1_000, 4_000, 65_535, 65_536, 70_000] {
            let longer = [&image[..], &vec![1; more]].concat();
            assert_eq!(reader.read(&longer), 6, "seed {seed}, {more} more");
        }
        let head = &image[..8 + 4 * usize::from(image[5])];
        let record = *image.last_chunk().expect("a record ends it");
        let last = (65_532 - head.len()) / 4;
        // The record is right, and the next repeats it: 17 at 2.
        for (records, answer) in [(last, 0x211), (last + 1, 6), (65_535, 6)] {
            let long = with_records(head, &vec![record; records]);
            assert_eq!(
                reader.read(&long),
                answer,
                "seed {seed}, {} bytes",
                long.len()
            );
        }
    }
}

#[test]
fn an_image_is_judged_after_the_lent_lengths() {
    let short = [
        Lend { state: 519, ..ALL },
        Lend { state: 0, ..ALL },
        Lend {
            tables: 32_767,
            ..ALL
        },
        Lend { tables: 0, ..ALL },
    ];
    let just_enough = Lend {
        state: 520,
        tables: 32_768,
        ..ALL
    };
    for seed in seeds(500, 30) {
        let rng = &mut Rng::new(seed);
        for (version, image) in [(1, image(rng)), (2, image_2(rng))] {
            let mut both = Both::new();
            for lend in short {
                both.lend(lend);
                assert_eq!(both.read(&image), 1);
                assert_eq!(both.read(&[]), 1);
            }
            both.lend(just_enough);
            assert_eq!(both.read(&image), 0);
            assert_eq!(both.read(&[]), 3);
            assert_eq!(both.image(version), image);
        }
    }
}
