//! Both engines on a network, call by call.

use trials::archive::Archive;
use trials::compare::{Difference, Pair};
use trials::engine::{Engine, Second};
use trials::fenced::{FencedArchive, Place};
use trials::lent::Lent;
use trials::random::{fresh_id, run, run_from_built, Rng};
use trials::script::{Call, Lend, Line, Script};
use trials::second::memory::{STATE_WORDS, TABLE_BYTES};
use trials::second::network::Network;
use trials::second::Counts;

/// The trial of the proved engine beside the second one, and once more in each place of fenced memory.
pub fn fenced_too<T>(trial: fn(&dyn Engine, &dyn Engine) -> Result<T, String>) {
    trial(&Archive, &Second).unwrap();
    for place in Place::ALL {
        trial(&FencedArchive(place), &Second).unwrap();
    }
}

/// How much of each memory is lent: mostly enough, now and then one place short or more than is needed.
pub fn lent_lengths(rng: &mut Rng) -> (usize, usize) {
    let near = |rng: &mut Rng, fixed: usize| match rng.below(10) {
        0 => fixed - 1,
        1 => rng.below(fixed),
        2 => fixed + 9,
        _ => fixed,
    };
    (near(rng, STATE_WORDS), near(rng, TABLE_BYTES))
}

/// The two engines, and what they were asked so far.
pub struct Both {
    pair: Pair<'static>,
    script: Script,
}

impl Both {
    /// Memory full of noise: the first call founds or reads.
    pub fn new() -> Both {
        Both {
            pair: Pair::new(&Archive, &Second),
            script: Script::default(),
        }
    }

    /// After a short run, a long one, or one call on a built state.
    pub fn after_some_run(rng: &mut Rng) -> Both {
        let mut both = Both::new();
        both.play(&match rng.below(3) {
            0 => run(rng, 40).0,
            1 => run(rng, 200).0,
            _ => run_from_built(rng, 1).0,
        });
        both
    }

    pub fn founded(settings: [u64; 3], id: u32) -> Both {
        let mut both = Both::new();
        assert_eq!(both.call(Call::Found { settings, id }), 0);
        both
    }

    pub fn read_in(image: &[u8]) -> Both {
        let mut both = Both::new();
        assert_eq!(both.read(image), 0);
        both
    }

    pub fn read(&mut self, image: &[u8]) -> u64 {
        let image = image.to_vec();
        self.call(Call::Read { image })
    }

    pub fn memory(&self) -> &Lent {
        self.pair.memory()
    }

    /// Lends so much memory from here on.
    pub fn lend(&mut self, lend: Lend) {
        self.obey(Line::Lend(lend));
    }

    /// The answer; a difference ends the test with the script.
    pub fn call(&mut self, call: Call) -> u64 {
        self.obey(Line::Call(call))
    }

    pub fn play(&mut self, script: &Script) {
        for line in &script.lines {
            self.obey(line.clone());
        }
    }

    pub fn obey(&mut self, line: Line) -> u64 {
        self.script.lines.push(line);
        let line = self.script.lines.len() - 1;
        self.pair
            .obey(&self.script.lines[line])
            .unwrap_or_else(|what| panic!("{}", Difference { line, what }.report(0, &self.script)))
    }

    pub fn begin(&mut self, id: u32, gateway: u64) -> u64 {
        self.call(Call::Begin { id, gateway })
    }

    pub fn deliver(&mut self, sender: u64, receiver: u64) -> u64 {
        self.call(Call::Deliver { sender, receiver })
    }

    /// Delivers the first request that is not held, until none is outstanding; answers what was taken.
    pub fn settle(&mut self) -> Vec<u64> {
        let mut taken = vec![];
        loop {
            let outstanding = self.network().outstanding();
            if outstanding.is_empty() {
                return taken;
            }
            let delivered = outstanding
                .iter()
                .map(|&(sender, receiver)| self.deliver(sender as u64, receiver as u64))
                .find(|answer| answer & 0xff == 0);
            taken.push(delivered.expect("not every request is held"));
        }
    }

    /// Begins and delivers in any order, at most so many joins in flight, until so many nodes are all in system.
    pub fn grow(&mut self, rng: &mut Rng, nodes: usize, in_flight: usize) {
        loop {
            let network = self.network();
            let outstanding = network.outstanding();
            let joins = network.iter().filter(|(_, node)| !node.in_system()).count();
            if network.count() < nodes && (joins == 0 || joins < in_flight && rng.once_in(2)) {
                let gateways = network.iter().filter(|(_, node)| node.in_system());
                let gateways: Vec<usize> = gateways.map(|(number, _)| number).collect();
                let id = fresh_id(rng, &network).expect("there are more ids than nodes");
                assert_eq!(self.begin(id, rng.pick(&gateways) as u64) & 0xff, 0);
            } else if outstanding.is_empty() {
                return;
            } else {
                let (sender, receiver) = rng.pick(&outstanding);
                self.deliver(sender as u64, receiver as u64);
            }
        }
    }

    pub fn network(&self) -> Network {
        Network::decode(self.pair.memory().used_state())
    }

    pub fn lookup(&mut self, from: u64, to: u64, failed: u64) -> u64 {
        self.call(Call::Lookup { from, to, failed })
    }

    /// The counts of a survey, which is taken.
    pub fn survey(&mut self, failed: u64) -> Counts {
        assert_eq!(self.call(Call::Survey { failed }), 0);
        *self.memory().used_counts()
    }

    /// The image of the network of this version, which the call of writing gives.
    pub fn image(&mut self, version: u64) -> Vec<u8> {
        let answer = self.call(Call::Write { version });
        assert_eq!(answer & 0xff, 0);
        self.pair.memory().out[..(answer >> 8) as usize].to_vec()
    }
}

/// The image of a network of 64 nodes.
pub fn full_image(rng: &mut Rng) -> Vec<u8> {
    let settings = rng.pick(&[[16, 8, 4], [4, 4, 2], [2, 7, 3]]);
    let mut both = Both::founded(settings, 0);
    both.grow(rng, 64, 4);
    both.image(1)
}
