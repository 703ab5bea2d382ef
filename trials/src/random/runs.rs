//! Random runs: a founding, then calls in any order with many joins in flight, a quarter of them bad.

use super::{bad_id, bad_number, damaged_image, damaged_trace, failed_set, fresh_id, id};
use super::{paths, set_up_built, settings, thinned, trace_file, Path, Rng};
use crate::engine::Second;
use crate::lent::{Lent, ALL};
use crate::script::{set_of, Call, Lend, Line, Script};
use crate::second::memory::{STATE_WORDS, TABLE_BYTES};
use crate::second::network::Network;
use crate::second::Settings;

const BAD_VERSIONS: [u64; 9] = [
    0,
    3,
    255,
    256 + 1,
    256 + 2,
    (1 << 32) + 1,
    1 << 63,
    (1 << 63) + 2,
    u64::MAX,
];

/// Writes a script while playing it, so as to know what is outstanding.
struct Maker<'a> {
    rng: &'a mut Rng,
    memory: Lent,
    script: Script,
    /// Beginnings among this many good calls; rare ones let joins end, frequent ones let them meet.
    pace: usize,
    /// What was written, to be read again.
    images: Vec<Vec<u8>>,
}

/// A run of so many lines from a founding; also answers the memory at its end.
pub fn run(rng: &mut Rng, lines: usize) -> (Script, Lent) {
    let settings = settings(rng);
    run_in(rng, settings, lines)
}

/// The same with these settings, until a founding or a reading among the lines changes them.
pub fn run_in(rng: &mut Rng, settings: Settings, lines: usize) -> (Script, Lent) {
    let mut maker = Maker::new(rng);
    maker.found(settings);
    maker.go_on(lines)
}

/// The same from a state that is sound and most likely reached by no run, set up by hand.
pub fn run_from_built(rng: &mut Rng, lines: usize) -> (Script, Lent) {
    let set_up = set_up_built(rng);
    let mut maker = Maker::new(rng);
    for line in set_up {
        maker.obey(line);
    }
    maker.go_on(lines)
}

impl<'a> Maker<'a> {
    fn new(rng: &'a mut Rng) -> Maker<'a> {
        let pace = rng.pick(&[2, 2, 3, 5, 10, 30]);
        Maker {
            rng,
            memory: Lent::noise(),
            script: Script::default(),
            pace,
            images: vec![],
        }
    }

    fn go_on(mut self, lines: usize) -> (Script, Lent) {
        let end = self.script.lines.len() + lines;
        while self.script.lines.len() < end {
            if self.rng.once_in(4) {
                self.bad_call();
            } else {
                self.good_call();
            }
        }
        (self.script, self.memory)
    }

    fn obey(&mut self, line: Line) -> u64 {
        let answer = self.memory.obey(&Second, &line);
        self.script.lines.push(line);
        answer
    }

    fn call(&mut self, call: Call) -> u64 {
        self.obey(Line::Call(call))
    }

    fn network(&self) -> Network {
        Network::decode(self.memory.used_state())
    }

    fn found(&mut self, chosen: Settings) {
        let id = id(self.rng, chosen);
        let settings = [chosen.base(), chosen.digits(), chosen.depth()].map(|n| n as u64);
        self.call(Call::Found { settings, id });
    }

    /// Any node, in system or not.
    fn any(&mut self) -> u64 {
        self.rng.between(1, self.network().count() as u64)
    }

    fn good_call(&mut self) {
        let pace = self.pace;
        if self.rng.once_in(pace) {
            return self.begin();
        }
        match self.rng.below(40) {
            0 => self.found_or_read_again(),
            1..=3 => self.write(),
            4 | 5 => self.look(Call::Verdict),
            6..=9 => self.lookup(),
            10 => self.look(Call::Sound),
            11 => self.survey(),
            12 | 13 => self.withdraw(),
            14 => self.trace(),
            15 | 16 => self.look(Call::Fill),
            _ => self.deliver(),
        }
    }

    /// A call whose answer the run does not need.
    fn look(&mut self, call: Call) {
        self.call(call);
    }

    fn begin(&mut self) {
        let network = self.network();
        let gateways = network.iter().filter(|(_, node)| node.in_system());
        let gateways: Vec<usize> = gateways.map(|(number, _)| number).collect();
        if let Some(id) = fresh_id(self.rng, &network) {
            let gateway = self.rng.pick(&gateways) as u64;
            self.call(Call::Begin { id, gateway });
        } else {
            self.deliver();
        }
    }

    /// Withdraws the newest join, and at times those before it too, as long as they copy or wait.
    fn withdraw(&mut self) {
        let network = self.network();
        let newest_first = (1..=network.count()).rev();
        let joining = newest_first.take_while(|&number| network.node(number).joining());
        let joining: Vec<usize> = joining.collect();
        if joining.is_empty() {
            return self.deliver();
        }
        let most = self.rng.pick(&[1, 1, 1, 2, 3, 64]);
        for number in joining.into_iter().take(most) {
            let node = number as u64;
            self.call(Call::Withdraw { node });
        }
    }

    fn deliver(&mut self) {
        let outstanding = self.network().outstanding();
        if outstanding.is_empty() {
            return self.lookup();
        }
        let (sender, receiver) = self.rng.pick(&outstanding);
        let (sender, receiver) = (sender as u64, receiver as u64);
        self.call(Call::Deliver { sender, receiver });
    }

    /// Nodes that have failed, and perhaps numbers that no node has.
    fn failed(&mut self) -> u64 {
        let count = self.network().count();
        failed_set(self.rng, count)
    }

    /// Mostly neither end has failed.
    fn lookup(&mut self) {
        let (from, to, set) = (self.any(), self.any(), self.failed());
        let ends = set_of(&[from, to]);
        let failed = if self.rng.once_in(4) {
            set
        } else {
            set & !ends
        };
        self.call(Call::Lookup { from, to, failed });
    }

    fn survey(&mut self) {
        let failed = self.failed();
        self.call(Call::Survey { failed });
    }

    /// Paths that are allowed, mostly few.
    fn paths(&mut self) -> Vec<Path> {
        let count = self.rng.pick(&[0, 1, 1, 2, 2, 5, 5, 20, 255]);
        paths(self.rng, &self.memory, count)
    }

    fn trace(&mut self) {
        let trace = trace_file(&self.paths());
        self.call(Call::Trace { trace });
    }

    fn write(&mut self) {
        let version = self.rng.pick(&[1, 2]);
        let length = (self.call(Call::Write { version }) >> 8) as usize;
        if length > 0 {
            self.images.push(self.memory.out[..length].to_vec());
        }
    }

    /// Starts a new run, rarely by founding.
    fn found_or_read_again(&mut self) {
        if self.images.is_empty() || self.rng.once_in(8) {
            let chosen = settings(self.rng);
            return self.found(chosen);
        }
        let place = self.rng.below(self.images.len());
        let image = self.images[place].clone();
        if self.rng.once_in(2) {
            return self.read_thinned(&image);
        }
        self.call(Call::Read { image });
    }

    /// An image with neighbors left out, which is mostly filled.
    fn read_thinned(&mut self, image: &[u8]) {
        let times = self.rng.pick(&[1, 2, 8]);
        let image = thinned(self.rng, image, times);
        self.call(Call::Read { image });
        match self.rng.below(4) {
            0 => self.short_list(),
            1 => {}
            _ => self.look(Call::Fill),
        }
    }

    fn bad_call(&mut self) {
        match self.rng.below(20) {
            0 => self.bad_founding(),
            1 | 17 => self.bad_reading(),
            2..=4 => self.bad_beginning(),
            5..=7 => self.bad_delivery(),
            8 => self.bad_lookup(),
            9 => self.short_output(),
            10 | 11 => self.bad_withdrawal(),
            12 => self.failed_lookup(),
            13 | 14 => self.bad_trace(),
            18 => self.bad_version(),
            19 => self.short_list(),
            _ => self.short_memory(),
        }
    }

    fn bad_founding(&mut self) {
        let chosen = settings(self.rng);
        let mut settings = [chosen.base(), chosen.digits(), chosen.depth()].map(|n| n as u64);
        let worse = [0, 1, 5, 9, 17, 256 + 2, (1 << 32) + 3, 1 << 63];
        let id = bad_id(self.rng, chosen).filter(|_| self.rng.once_in(2));
        if id.is_none() {
            settings[self.rng.below(3)] = self.rng.pick(&worse);
        }
        let id = id.unwrap_or(u32::MAX);
        self.call(Call::Found { settings, id });
    }

    /// A version that there is not; some look like one when cut to fewer bits.
    fn bad_version(&mut self) {
        let version = self.rng.pick(&BAD_VERSIONS);
        self.call(Call::Write { version });
    }

    /// One of the last two images, damaged.
    fn bad_reading(&mut self) {
        let last = self.images.iter().rev().take(2);
        let last: Vec<&Vec<u8>> = last.collect();
        let image = match last.is_empty() {
            true => vec![4, 1, 2, 2, 1],
            false => self.rng.pick(&last).clone(),
        };
        let image = damaged_image(self.rng, &image);
        self.call(Call::Read { image });
    }

    fn bad_beginning(&mut self) {
        let network = self.network();
        let known = network.node(self.any() as usize).id;
        let bad = bad_id(self.rng, network.settings).unwrap_or(known);
        let fresh = fresh_id(self.rng, &network).unwrap_or(known);
        let id = self.rng.pick(&[known, bad, fresh, fresh]);
        let gateway = if self.rng.once_in(2) {
            bad_number(self.rng, network.count())
        } else {
            self.any()
        };
        self.call(Call::Begin { id, gateway });
    }

    fn bad_delivery(&mut self) {
        let count = self.network().count();
        let (any, other, bad) = (self.any(), self.any(), bad_number(self.rng, count));
        let pairs = [(any, bad), (bad, any), (bad, bad), (any, any), (any, other)];
        let (sender, receiver) = self.rng.pick(&pairs);
        self.call(Call::Deliver { sender, receiver });
    }

    fn bad_withdrawal(&mut self) {
        let network = self.network();
        let (any, bad) = (self.any(), bad_number(self.rng, network.count()));
        let attached = network.iter().filter(|(_, node)| !node.joining());
        let attached: Vec<usize> = attached.map(|(number, _)| number).collect();
        let newest_attached = attached[attached.len() - 1] as u64;
        let node = self.rng.pick(&[any, bad, newest_attached]);
        self.call(Call::Withdraw { node });
    }

    fn bad_lookup(&mut self) {
        let count = self.network().count();
        let (any, bad) = (self.any(), bad_number(self.rng, count));
        let (from, to) = self.rng.pick(&[(any, bad), (bad, any), (bad, bad)]);
        let failed = self.failed() | self.rng.pick(&[0, set_of(&[any])]);
        self.call(Call::Lookup { from, to, failed });
    }

    /// From a failed node, to one, or both.
    fn failed_lookup(&mut self) {
        let (any, other) = (self.any(), self.any());
        let failed = self.failed() | set_of(&[any]);
        let (from, to) = self.rng.pick(&[(any, other), (other, any), (any, any)]);
        self.call(Call::Lookup { from, to, failed });
    }

    fn bad_trace(&mut self) {
        let (paths, count) = (self.paths(), self.network().count() as u64);
        let trace = damaged_trace(self.rng, &paths, count);
        self.call(Call::Trace { trace });
    }

    fn short_output(&mut self) {
        let image = self.images.last().map_or(40, Vec::len);
        let out = self.rng.pick(&[0, 1, image - 1, image, image + 1]);
        self.obey(Line::Lend(Lend { out, ..ALL }));
        self.write();
        self.obey(Line::Lend(ALL));
    }

    /// A filling with too little memory for its list, or with just enough.
    fn short_list(&mut self) {
        let bytes = 4 * (self.memory.clone().call(&Second, &Call::Fill) >> 8) as usize;
        let short = [0, bytes / 2, bytes.saturating_sub(1)];
        let out = self
            .rng
            .pick(&[short, [bytes, bytes + 1, bytes + 4]].concat());
        self.obey(Line::Lend(Lend { out, ..ALL }));
        self.look(Call::Fill);
        self.obey(Line::Lend(ALL));
    }

    /// A call with too little memory, or with just enough.
    fn short_memory(&mut self) {
        let state = self.rng.pick(&[0, 1, STATE_WORDS - 1, STATE_WORDS]);
        let tables = self.rng.pick(&[0, 511, TABLE_BYTES - 1, TABLE_BYTES]);
        let (short, full) = (Lend { state, ..ALL }, Lend { tables, ..ALL });
        let both = Lend { tables, ..short };
        let lend = self.rng.pick(&[short, full, both]);
        self.obey(Line::Lend(lend));
        self.good_call();
        self.obey(Line::Lend(ALL));
    }
}
