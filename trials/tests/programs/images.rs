//! What is tried of each program that reads an image from standard input.

use std::fs;

use trials::engine::{Engine, Second};
use trials::lent::Lent;
use trials::paper::JOINING;
use trials::random::{cuts, damaged_image, image, image_2, seeds, Rng};
use trials::records::{by_hand, long, moved, named, one_fault, Judged};

use crate::pipes::{printed, root};

/// How an image is made.
pub type Made = fn(&mut Rng) -> Vec<u8>;

/// The images of samples.
const SAMPLES: [&str; 6] = [
    "e1",
    "e1-damaged",
    "e1-short",
    "network64",
    "depth3",
    "concurrent-joins",
];

/// A piece that holds a whole image.
const WHOLE: usize = 65_536;

/// A program, and what it must print.
pub struct ImageProgram {
    pub name: &'static str,
    /// What stands behind a sample's name in that of the file with its lines.
    pub ending: &'static str,
    /// The lines after the first, of an image that was read into this memory, or the answer by which the program refuses it still.
    pub lines: fn(&mut Lent) -> Result<String, u64>,
    /// The lines after the first, of an image that is refused with this answer.
    pub refused: fn(u64) -> String,
}

impl ImageProgram {
    pub fn printed(&self, image: &[u8], piece: usize) -> String {
        printed(&[self.name], &root(), image, piece)
    }

    /// Its lines by the second engine.
    pub fn expected(&self, image: &[u8]) -> String {
        let mut memory = Lent::noise();
        let lines = match Second.read(&mut memory.state, &mut memory.tables, image) {
            0 => (self.lines)(&mut memory),
            answer => Err(answer),
        };
        match lines {
            Ok(lines) => format!("refusal 0\n{lines}"),
            Err(answer) => self.refusal(answer),
        }
    }

    fn refusal(&self, answer: u64) -> String {
        format!("refusal {}\n{}", answer & 0xff, (self.refused)(answer))
    }

    /// Answers what is printed, which must be what is expected.
    fn agree(&self, image: &[u8], piece: usize, seed: u64) -> String {
        let printed = self.printed(image, piece);
        assert_eq!(printed, self.expected(image), "seed {seed}: {image:02x?}");
        printed
    }

    pub fn samples_print_what_stands_beside_them(&self) {
        for name in SAMPLES {
            let beside = |ending: &str| root().join("samples").join(format!("{name}.{ending}"));
            let image = fs::read(beside("image")).expect(name);
            let printed = self.agree(&image, WHOLE, 0);
            let lines = fs::read_to_string(beside(self.ending)).expect(name);
            assert_eq!(printed, lines, "{name}");
        }
    }

    /// So many images that are made so; also answers what was printed for each.
    pub fn random_and_damaged_images_print_the_same(&self, made: Made, count: u64) -> Vec<String> {
        let mut all = vec![];
        for seed in seeds(0, count) {
            let mut rng = Rng::new(seed);
            let whole = made(&mut rng);
            all.push(self.agree(&whole, WHOLE, seed));
            for _ in 0..8 {
                all.push(self.agree(&damaged_image(&mut rng, &whole), WHOLE, seed));
            }
        }
        all
    }

    /// What is printed for bad records, written out; each image by its name.
    pub fn bad_records_print(&self, cases: &[(&str, &str)]) {
        for (name, lines) in cases {
            assert_eq!(self.printed(&named(name).image, WHOLE), *lines, "{name}");
        }
    }

    /// The numbers and places are those known for each image.
    pub fn refused_records_are_printed(&self) {
        let lists = [by_hand(), moved(), long(), one_fault()];
        let refused = |case: &Judged| case.refusal != 0;
        for case in lists.into_iter().flatten().filter(refused) {
            let lines = self.refusal(case.answer());
            assert_eq!(self.printed(&case.image, WHOLE), lines, "{}", case.name);
            assert_eq!(self.expected(&case.image), lines, "{}", case.name);
        }
    }

    pub fn cut_images_print_the_same(&self) {
        for made in [image, image_2] {
            let whole = made(&mut Rng::new(7));
            let ends = cuts(&whole).take(300).chain(cuts(&whole).rev().take(100));
            for (place, cut) in ends.enumerate() {
                self.agree(&cut, WHOLE, place as u64);
            }
        }
    }

    pub fn a_pipe_may_deliver_in_pieces_of_any_size(&self) {
        for seed in seeds(1_000, 40) {
            let mut rng = Rng::new(seed);
            for made in [image, image_2] {
                let whole = made(&mut rng);
                self.agree(&whole, 1 + rng.below(700), seed);
            }
        }
    }

    pub fn overlong_images_meet_6_if_nothing_earlier(&self) {
        let whole = fs::read(root().join("samples/network64.image")).expect("network64");
        for length in [whole.len() + 1, 65_535, 65_536, 65_537, 70_000, 1_000_000] {
            let mut long = whole.clone();
            long.resize(length, 0);
            assert_eq!(self.printed(&long, WHOLE), "refusal 6\n", "{length}");
            long[1] = 3;
            assert_eq!(self.printed(&long, WHOLE), "refusal 4\n", "{length}");
        }
        assert_eq!(self.printed(&[], 1), "refusal 3\n");
    }

    /// Images of version 2 that are refused, each by its number alone: its length, and what stands behind its records.
    pub fn refused_images_of_version_2_print_one_line(&self) {
        let changed = |place: usize, value| {
            let mut image = JOINING.to_vec();
            image[place] = value;
            image
        };
        let cases = [
            (changed(1, 3), 4),
            (changed(1, 1), 6),
            (changed(32, 0), 6),
            (changed(53, 1), 6),
            (changed(33, 0), 24),
            (changed(33, 3), 24),
            (changed(34, 0), 24),
            (changed(36, 2), 24),
            (changed(56, 2), 24),
            ([&JOINING[..53], &[1, 0, 0]].concat(), 24),
            ([&JOINING[..], &[0]].concat(), 6),
        ];
        for (image, refusal) in cases {
            let lines = format!("refusal {refusal}\n");
            assert_eq!(self.printed(&image, WHOLE), lines, "{image:02x?}");
            assert_eq!(self.expected(&image), lines, "{image:02x?}");
        }
    }
}
