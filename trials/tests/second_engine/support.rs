//! A network to call, with the second engine's own answers.

use trials::lent::Lent;
use trials::second::network::Network;
use trials::second::{
    self, BeginAnswer, DeliverAnswer, FillAnswer, FoundAnswer, LookupAnswer, ReadAnswer,
    SurveyAnswer, TraceAnswer, VerdictAnswer, WithdrawAnswer, WriteAnswer,
};

pub struct Trial {
    pub memory: Lent,
}

impl Trial {
    /// Memory full of noise: the first call founds or reads.
    pub fn new() -> Trial {
        Trial {
            memory: Lent::noise(),
        }
    }

    pub fn founded(settings: [u64; 3], id: u32) -> Trial {
        let mut trial = Trial::new();
        assert_eq!(trial.found(settings, id).refusal, 0);
        trial
    }

    pub fn read_in(image: &[u8]) -> Trial {
        let mut trial = Trial::new();
        assert_eq!(trial.read(image).refusal, 0);
        trial
    }

    pub fn found(&mut self, [base, digits, depth]: [u64; 3], id: u32) -> FoundAnswer {
        let Lent { state, tables, .. } = &mut self.memory;
        second::found(state, tables, base, digits, depth, id)
    }

    pub fn read(&mut self, image: &[u8]) -> ReadAnswer {
        let Lent { state, tables, .. } = &mut self.memory;
        second::read(state, tables, image)
    }

    pub fn begin(&mut self, id: u32, gateway: u64) -> BeginAnswer {
        let Lent { state, tables, .. } = &mut self.memory;
        second::begin(state, tables, id, gateway)
    }

    pub fn withdraw(&mut self, node: u64) -> WithdrawAnswer {
        let Lent { state, tables, .. } = &mut self.memory;
        second::withdraw(state, tables, node)
    }

    pub fn deliver(&mut self, sender: u64, receiver: u64) -> DeliverAnswer {
        let Lent { state, tables, .. } = &mut self.memory;
        second::deliver(state, tables, sender, receiver)
    }

    pub fn lookup(&self, from: u64, to: u64, failed: u64) -> LookupAnswer {
        second::lookup(&self.memory.state, &self.memory.tables, from, to, failed)
    }

    pub fn verdict(&self) -> VerdictAnswer {
        second::verdict(&self.memory.state, &self.memory.tables)
    }

    pub fn survey(&self, failed: u64) -> SurveyAnswer {
        second::survey(&self.memory.state, &self.memory.tables, failed)
    }

    pub fn trace(&self, trace: &[u8]) -> TraceAnswer {
        second::trace(&self.memory.state, &self.memory.tables, trace)
    }

    pub fn write(&mut self, version: u64) -> WriteAnswer {
        let Lent {
            state, tables, out, ..
        } = &mut self.memory;
        second::write(state, tables, version, out)
    }

    pub fn fill(&mut self) -> FillAnswer {
        let Lent {
            state, tables, out, ..
        } = &mut self.memory;
        second::fill(state, tables, out)
    }

    pub fn image(&mut self, version: u64) -> Vec<u8> {
        let written = self.write(version);
        assert_eq!(written.refusal, 0);
        self.memory.out[..written.length as usize].to_vec()
    }

    pub fn network(&self) -> Network {
        Network::decode(self.memory.used_state())
    }

    /// Delivers the first request that is not held, until none is outstanding; answers what was taken.
    pub fn settle(&mut self) -> Vec<DeliverAnswer> {
        let mut taken = vec![];
        loop {
            let outstanding = self.network().outstanding();
            if outstanding.is_empty() {
                return taken;
            }
            let delivered = outstanding
                .iter()
                .map(|&(sender, receiver)| self.deliver(sender as u64, receiver as u64))
                .find(|delivered| delivered.refusal == 0);
            taken.push(delivered.expect("not every request is held"));
        }
    }
}
