//! Demand 3 on the second engine's histories: how many requests a node sends from its latest beginning on, how long lookups
//! are, that what a yes verdict found stays, that surveys add up, and that each node's counts are those of the history. Lookups
//! and surveys are with failed nodes too.

use trials::compare::{compare, Difference};
use trials::engine::Second;
use trials::lent::Lent;
use trials::panel::History;
use trials::random::{all_nodes, failed_set, run, run_from_built, run_in, seeds, Rng};
use trials::script::{set_of, Call, Line, Script};
use trials::second::memory::Tables;
use trials::second::network::Network;
use trials::second::{lookup, sound, survey, verdict, very_hops};
use trials::second::{Answer, LookupAnswer, NodeSet, Refusal, Settings, LOST};
use trials::surveys::adds_up;

/// What is known of a run from its history alone, and what must not change any more.
struct Watch {
    history: History,
    /// Of the last point that passed the verdict: between every two nodes, and between some with failed nodes.
    kept: Vec<Kept>,
    /// Withdrawals after such a point, and numbers withdrawn and begun again.
    withdrawn: usize,
    begun_again: usize,
    /// Lookups that were lost at such a point.
    lost: usize,
}

/// A lookup and its very hops.
struct Kept {
    to: usize,
    failed: u64,
    hops: Vec<usize>,
}

impl Watch {
    fn new(memory: &Lent) -> Watch {
        Watch {
            history: History::from_here(memory.used_state()),
            kept: vec![],
            withdrawn: 0,
            begun_again: 0,
            lost: 0,
        }
    }

    /// Takes down a line of the run; after a call the point is held to the promises.
    fn after(
        &mut self,
        line: &Line,
        answer: u64,
        memory: &Lent,
        rng: &mut Rng,
    ) -> Result<(), String> {
        let withdrawn = matches!(line, Line::Call(Call::Withdraw { .. })) && answer == 0;
        if matches!(line, Line::Call(Call::Begin { .. })) && answer & 0xff == 0 {
            let sent = self.history.requests().nth((answer >> 8) as usize - 1);
            self.begun_again += usize::from(sent > Some(0));
        }
        self.history.note(line, answer, memory.used_state());
        match line {
            Line::Call(Call::Found { .. } | Call::Read { .. }) if answer == 0 => self.kept.clear(),
            Line::Call(_) => {}
            _ => return Ok(()),
        }
        if withdrawn && !self.kept.is_empty() {
            self.withdrawn += 1;
            self.hops_are_kept(memory, &Network::decode(memory.used_state()))?;
        }
        self.point_keeps(memory, rng)
    }

    /// Holds the three parts against a point of the run.
    fn point_keeps(&mut self, memory: &Lent, rng: &mut Rng) -> Result<(), String> {
        let (state, tables) = (memory.used_state(), memory.used_tables());
        if !sound(state, tables) {
            return Err("the state is not sound".to_string());
        }
        let network = Network::decode(state);
        self.few_requests(&network)?;
        self.history.stands_in(state)?;
        let count = network.count() as u64;
        for _ in 0..3 {
            let ends = [0; 2].map(|_| rng.between(1, count));
            let failed = failed_set(rng, network.count());
            lookup_is_short(memory, &network, ends, failed)?;
        }
        let passes = verdict(state, tables).consistent;
        for failed in [0, failed_set(rng, network.count())] {
            survey_fits(memory, &network, failed, passes)?;
        }
        if passes || rng.once_in(8) {
            self.hops_are_kept(memory, &network)?;
        }
        if passes {
            self.keep_hops(&network, tables, rng)?;
        }
        Ok(())
    }

    /// (a) how many copy and wait requests each number has sent since its latest beginning, counted from the history: at most d + 1, also where it is
    /// withdrawn.
    fn few_requests(&self, network: &Network) -> Result<(), String> {
        let most = network.settings.digits() as u64 + 1;
        match (1..)
            .zip(self.history.requests())
            .find(|(_, sent)| *sent > most)
        {
            Some((node, sent)) => Err(format!("node {node} sent {sent} requests")),
            None => Ok(()),
        }
    }

    /// (c) The very hops are what they were, and the answer is theirs.
    fn hops_are_kept(&self, memory: &Lent, network: &Network) -> Result<(), String> {
        for Kept { to, failed, hops } in &self.kept {
            let (ends, set) = ([hops[0], *to], NodeSet(*failed));
            if !very_hops(network, memory.used_tables(), ends, set).eq(hops.iter().copied()) {
                return Err(format!("{ends:?} without {failed:#x} went {hops:?}"));
            }
        }
        let some = self.kept.iter().rev().step_by(self.kept.len() / 3 + 1);
        for Kept { to, failed, hops } in some {
            let (from, last) = (hops[0] as u64, hops[hops.len() - 1]);
            let answer = lookup(&memory.state, &memory.tables, from, *to as u64, *failed);
            let kept = LookupAnswer {
                refusal: 0,
                arrived: last == *to,
                hops: hops.len() as u64 - 1,
                last: last as u64,
            };
            if answer != kept {
                return Err(format!("{from} to {to} went {hops:?}, now {answer:?}"));
            }
        }
        Ok(())
    }

    /// Where the network passes the verdict, every lookup arrives with fewer failed nodes than an entry holds.
    fn keep_hops(
        &mut self,
        network: &Network,
        tables: &Tables,
        rng: &mut Rng,
    ) -> Result<(), String> {
        let nodes = 1..=network.count();
        let pairs = nodes
            .clone()
            .flat_map(|from| nodes.clone().map(move |to| ([from, to], 0)));
        let some = (0..40).map(|_| {
            let ends = [0; 2].map(|_| 1 + rng.below(network.count()));
            let set = failed_set(rng, network.count());
            (ends, set & !set_of(&ends.map(|end| end as u64)))
        });
        let all: Vec<([usize; 2], u64)> = pairs.chain(some).collect();
        self.kept.clear();
        for ([from, to], failed) in all {
            let hops = very_hops(network, tables, [from, to], NodeSet(failed));
            let hops: Vec<usize> = hops.collect();
            if hops.last() != Some(&to) && few(network, failed) {
                return Err(format!("consistent, but {from} to {to} goes {hops:?}"));
            }
            self.lost += usize::from(hops.last() != Some(&to));
            self.kept.push(Kept { to, failed, hops });
        }
        Ok(())
    }
}

/// Have fewer nodes failed than an entry holds?
fn few(network: &Network, failed: u64) -> bool {
    let failed = NodeSet(failed & all_nodes(network.count()));
    failed.len() < network.settings.depth()
}

/// (b) A lookup is refused where an end has failed; else its hops are at most d less the digits already matched, and none of them is a failed node.
fn lookup_is_short(
    memory: &Lent,
    network: &Network,
    [from, to]: [u64; 2],
    failed: u64,
) -> Result<(), String> {
    let answer = lookup(&memory.state, &memory.tables, from, to, failed);
    let (ends, set) = ([from as usize, to as usize], NodeSet(failed));
    let right = if ends.iter().any(|&end| set.contains(end)) {
        answer == LookupAnswer::refused(Refusal::HasFailed)
    } else {
        let most = network.settings.digits() - network.common_suffix(ends[0], ends[1]);
        let mut hops = very_hops(network, memory.used_tables(), ends, set);
        answer.refusal == 0 && answer.hops as usize <= most && !hops.any(|hop| set.contains(hop))
    };
    right
        .then_some(())
        .ok_or_else(|| format!("{from} to {to} without {failed:#x}: {answer:?}"))
}

/// A survey is not refused and adds up; where the network passes the verdict and few nodes have failed no pair is lost.
fn survey_fits(memory: &Lent, network: &Network, failed: u64, passes: bool) -> Result<(), String> {
    let answer = survey(&memory.state, &memory.tables, failed);
    let survives = passes && few(network, failed);
    if answer.refusal != 0 || survives && answer.counts[LOST] != 0 {
        return Err(format!("{answer:?} without {failed:#x}, {passes}"));
    }
    adds_up(memory.used_state(), failed, &answer.counts)
}

/// A script whose every point keeps the promises.
fn watch(seed: u64, script: &Script, rng: &mut Rng) -> Watch {
    let mut memory = Lent::noise();
    let mut watch = Watch::new(&memory);
    for (line, said) in script.lines.iter().enumerate() {
        let answer = memory.obey(&Second, said);
        let kept = watch.after(said, answer, &memory, rng);
        kept.unwrap_or_else(|what| panic!("{}", Difference { line, what }.report(seed, script)));
    }
    watch
}

/// There are many withdrawals where hops are kept, many numbers are given again, and many lookups that are kept are lost.
#[test]
fn runs_keep_their_promises() {
    let (mut withdrawn, mut begun_again, mut lost) = (0, 0, 0);
    for seed in seeds(0, 250) {
        let mut rng = Rng::new(seed);
        let calls = rng.pick(&[50, 200, 1_000]);
        let (script, _) = run(&mut rng, calls);
        let watched = watch(seed, &script, &mut rng);
        withdrawn += watched.withdrawn;
        begun_again += watched.begun_again;
        lost += watched.lost;
    }
    println!("{withdrawn} withdrawn, {begun_again} begun again, {lost} lost");
    assert!(withdrawn > 500 && begun_again > 500 && lost > 500);
}

#[test]
fn runs_in_small_settings_keep_their_promises() {
    for seed in seeds(4_000, 100) {
        let mut rng = Rng::new(seed);
        let (base, digits, depth) = rng.pick(&[(2, 3, 1), (2, 6, 2), (3, 4, 1), (4, 3, 2)]);
        let settings = Settings::new(base, digits, depth).expect("in range");
        let (script, _) = run_in(&mut rng, settings, 400);
        watch(seed, &script, &mut rng);
    }
}

#[test]
fn runs_from_any_sound_state_keep_their_promises() {
    for seed in seeds(5_000, 200) {
        let mut rng = Rng::new(seed);
        let (script, _) = run_from_built(&mut rng, 100);
        watch(seed, &script, &mut rng);
        if let Err(difference) = compare(&Second, &Second, &script) {
            panic!("{}", difference.report(seed, &script));
        }
    }
}
