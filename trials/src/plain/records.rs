//! The sentences about records, 9, 10, 17 and 18, slow and literal: each is asked of every record, whatever the others are.

/// Settings, ids and records of an image that nothing earlier refuses.
struct Plain<'a> {
    base: u8,
    digits: u8,
    depth: usize,
    ids: Vec<u32>,
    records: &'a [[u8; 4]],
}

/// The refusal and the place, counted from 1; both 0 for records that are right.
pub fn plain_records(image: &[u8], records: &[[u8; 4]]) -> (u8, u64) {
    let ids = image[6..][..4 * usize::from(image[5])].chunks(4);
    let id = |bytes: &[u8]| u32::from_le_bytes(bytes.try_into().unwrap());
    let plain = Plain {
        base: image[2],
        digits: image[3],
        depth: image[4].into(),
        ids: ids.map(id).collect(),
        records,
    };
    let first = |bad: &dyn Fn(usize) -> bool| (0..records.len()).find(|&at| bad(at));
    if first(&|at| plain.names_no_node(at)).is_some() {
        (9, 0)
    } else if let Some(at) = first(&|at| plain.out_of_order(at)) {
        (10, at as u64 + 1)
    } else if let Some(at) = first(&|at| plain.bad_neighbor(at)) {
        (17, at as u64 + 1)
    } else if plain.some_own_entry_is_absent() {
        (18, 0)
    } else if let Some(at) = first(&|at| plain.starts_for_another(at)) {
        (18, at as u64 + 1)
    } else {
        (0, 0)
    }
}

impl Plain<'_> {
    fn digit(&self, node: u8, level: u8) -> u32 {
        self.ids[usize::from(node) - 1] >> (4 * level) & 15
    }

    fn names_no_node(&self, at: usize) -> bool {
        let [node, _, _, neighbor] = self.records[at];
        let unknown = |number: u8| number == 0 || usize::from(number) > self.ids.len();
        unknown(node) || unknown(neighbor)
    }

    fn out_of_order(&self, at: usize) -> bool {
        let [node, level, digit, _] = self.records[at];
        let below = at > 0 && {
            let [before, level_before, digit_before, _] = self.records[at - 1];
            node < before
                || node == before && level < level_before
                || node == before && level == level_before && digit < digit_before
        };
        below || level >= self.digits || digit >= self.base
    }

    /// The records before this one in its entry.
    fn earlier(&self, at: usize) -> impl Iterator<Item = &[u8; 4]> {
        let entry = &self.records[at][..3];
        let before = self.records[..at].iter();
        before.filter(move |record| record[..3] == *entry)
    }

    fn bad_neighbor(&self, at: usize) -> bool {
        let [node, level, digit, neighbor] = self.records[at];
        let agrees = |low| self.digit(node, low) == self.digit(neighbor, low);
        let qualified = (0..level).all(agrees) && self.digit(neighbor, level) == digit.into();
        let repeats = self.earlier(at).any(|record| record[3] == neighbor);
        !qualified || repeats || self.earlier(at).count() >= self.depth
    }

    fn is_own(&self, [node, level, digit, _]: [u8; 4]) -> bool {
        self.digit(node, level) == digit.into()
    }

    fn some_own_entry_is_absent(&self) -> bool {
        let has = |node, level| {
            let mut of_level = self
                .records
                .iter()
                .filter(|r| r[0] == node && r[1] == level);
            of_level.any(|&record| self.is_own(record))
        };
        (1..=self.ids.len() as u8).any(|node| (0..self.digits).any(|level| !has(node, level)))
    }

    fn starts_for_another(&self, at: usize) -> bool {
        let record = self.records[at];
        let starts = self.earlier(at).next().is_none();
        starts && self.is_own(record) && record[0] != record[3]
    }
}
