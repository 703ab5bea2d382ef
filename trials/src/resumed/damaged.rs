//! Images of version 2 with sections four and five damaged: each byte changed, cut anywhere, longer, and each section changed under its right count;
//! every answer beside the literal reading.

use super::literal::{read, read_behind, Read};
use super::networks::all_statuses;
use super::steps::{both_read, write};
use crate::engine::{Engine, Second};
use crate::lent::Lent;
use crate::met::{meet, Met};
use crate::paper::JOINING;
use crate::random::{before_joins, cuts, damaged_joins, image_damages, joins, seeds, some_state};
use crate::random::{Rng, JOINS_KINDS};
use crate::second::memory::COUNT;

/// For a network of many nodes.
const FEW: [u8; 6] = [0, 1, 3, 64, 128, 255];

pub fn damaged(a: &dyn Engine, b: &dyn Engine) -> Result<Met, String> {
    let mut met = Met::new();
    let every: Vec<u8> = (0..=255).collect();
    let small = [JOINING.to_vec(), write(&Second, &all_statuses(), 2)?];
    for (name, image) in ["the smallest join", "all statuses"].into_iter().zip(small) {
        let judged = Damaged::new([a, b], &image, 1).judge(&every, &mut met);
        judged.map_err(|what| format!("{name}: {what}"))?;
    }
    for seed in seeds(3_000, 150) {
        let memory = some_state(&mut Rng::new(seed));
        let few = memory.state[COUNT] < 12;
        let values = if few { &every[..10] } else { &FEW };
        let image = write(&Second, &memory, 2)?;
        let judged = Damaged::new([a, b], &image, seed).judge(values, &mut met);
        judged.map_err(|what| format!("seed {seed}: {what}"))?;
    }
    Ok(met)
}

/// An image that is right, with the memory that damaged ones are read over.
struct Damaged<'a> {
    engines: [&'a dyn Engine; 2],
    image: &'a [u8],
    behind: usize,
    memory: Lent,
    rng: Rng,
}

impl<'a> Damaged<'a> {
    fn new(engines: [&'a dyn Engine; 2], image: &'a [u8], seed: u64) -> Damaged<'a> {
        Damaged {
            engines,
            image,
            behind: before_joins(image).expect("it has its counts"),
            memory: Lent::of_noise(seed + 7),
            rng: Rng::new(seed),
        }
    }

    fn judge(&mut self, values: &[u8], met: &mut Met) -> Result<(), String> {
        self.changed_bytes(values, met)?;
        self.other_lengths(met)?;
        self.other_counts(met)?;
        self.other_pieces(met)?;
        self.changed_sections(met)?;
        if self.image.len() < 600 {
            for image in image_damages(&mut self.rng, self.image) {
                self.answered(&image, read(&image), met)?;
            }
        }
        Ok(())
    }

    /// With these bytes in place of its last two sections.
    fn behind(&mut self, behind: &[u8], met: &mut Met) -> Result<u64, String> {
        let image = [&self.image[..self.behind], behind].concat();
        let expected = read_behind(&image);
        let answer = expected.answer;
        self.answered(&image, expected, met)?;
        Ok(answer)
    }

    /// Damaged once, and once more.
    fn changed_sections(&mut self, met: &mut Met) -> Result<(), String> {
        let whole = joins(&self.image[self.behind..]).expect("it has its counts");
        for kind in (0..JOINS_KINDS).flat_map(|kind| [kind; 12]) {
            let once = damaged_joins(&mut self.rng, &whole, kind);
            self.behind(&once, met)?;
            if let Some(damaged) = joins(&once) {
                let kind = self.rng.below(JOINS_KINDS);
                let twice = damaged_joins(&mut self.rng, &damaged, kind);
                self.behind(&twice, met)?;
                meet(met, "damaged twice");
            }
        }
        Ok(())
    }

    fn answered(&mut self, image: &[u8], expected: Read, met: &mut Met) -> Result<(), String> {
        meet(met, outcome(expected.answer));
        both_read(self.engines, &mut self.memory, image, &expected)
    }

    /// Of a network of many nodes some bytes.
    fn changed_bytes(&mut self, values: &[u8], met: &mut Met) -> Result<(), String> {
        let length = self.image.len() - self.behind;
        for place in (self.behind..self.image.len()).step_by(1 + length / 100) {
            for &value in values.iter().filter(|&&value| value != self.image[place]) {
                let mut image = self.image.to_vec();
                image[place] = value;
                self.answered(&image, read_behind(&image), met)?;
            }
        }
        Ok(())
    }

    /// Cut in its last two sections and at some earlier places, and with bytes behind it.
    fn other_lengths(&mut self, met: &mut Met) -> Result<(), String> {
        let image = self.image;
        let late = cuts(image).skip(self.behind.saturating_sub(2));
        let cut = cuts(image).step_by(97).chain(late);
        let more: [&[u8]; 5] = [&[0], &[255], &[1, 1], &[0; 20], &[2; 70_000]];
        let longer = more.map(|more| [image, more].concat());
        for wrong in cut.chain(longer) {
            let expected = read(&wrong);
            if expected.restored.is_some() {
                return Err(format!("{} bytes are taken", wrong.len()));
            }
            self.answered(&wrong, expected, met)?;
            meet(met, "cut or longer");
        }
        Ok(())
    }

    /// Counts of other numbers of nodes, with the right length: 24 and not 6.
    fn other_counts(&mut self, met: &mut Met) -> Result<(), String> {
        let mut joins = joins(&self.image[self.behind..]).expect("it has its counts");
        let nodes = joins.panels.len();
        for count in [0, 1, nodes - 1, nodes + 1, 64, 65, 255] {
            joins.panels.resize(count, [0; 2]);
            let answer = self.behind(&joins.bytes(), met)?;
            if count != nodes && answer != 24 {
                return Err(format!("{count} counts of {nodes} nodes"));
            }
            meet(met, "another number of counts");
        }
        Ok(())
    }

    /// Other numbers of nodes that are not settled, with the right length.
    fn other_pieces(&mut self, met: &mut Met) -> Result<(), String> {
        let mut joins = joins(&self.image[self.behind..]).expect("it has its counts");
        let pieces = joins.unsettled.clone();
        for count in [0, 1, 2, 63, 64, 65, 128, 255] {
            let again = pieces.iter().chain([&[0; 20]]).cycle();
            joins.unsettled = again.take(count).copied().collect();
            self.behind(&joins.bytes(), met)?;
        }
        Ok(())
    }
}

fn outcome(answer: u64) -> &'static str {
    match answer & 0xff {
        0 => "taken",
        6 => "6",
        24 => "24",
        _ => "another refusal",
    }
}
