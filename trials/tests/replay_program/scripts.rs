//! Random scripts of commands in any layout, with tables, panels, surveys and judgements of soundness among the calls.

use std::collections::BTreeMap;

use trials::random::{bad_number, failed_set, fresh_id, id, run, seeds, settings, Rng};
use trials::script::{Call, Line as RunLine};

use crate::language::{lines, Command, Line};
use crate::player::Player;
use crate::support::{replay, File, Folder};

/// A script while it is made: each command is played at once, so as to know how many nodes there are.
struct Maker<'a> {
    rng: &'a mut Rng,
    player: Player<'a>,
    folder: &'a Folder,
    made: Made,
}

#[derive(Default)]
pub struct Made {
    pub text: Vec<u8>,
    commands: Vec<Command>,
    /// What each `table`, each `panel`, each `sound`, each `survey`, each `trace` and each `fill` was answered, line by line of a panel, else its first line.
    looks: Vec<(&'static str, String)>,
    /// What the script reads and has not written itself.
    pub files: Vec<File>,
    pub printed: String,
}

/// A run as a script, with looks at its state from before its founding to its end. The folder is left as the script leaves it.
pub fn script(rng: &mut Rng, calls: usize, folder: &Folder) -> Made {
    let (run, _) = run(rng, calls);
    let mut maker = Maker::new(rng, folder);
    maker.before_founding();
    for line in run.lines {
        if let RunLine::Call(call) = line {
            maker.call(call);
            maker.look();
        }
    }
    maker.end()
}

/// Joins, many at a time, until there are 64 nodes, and often until all are settled and the image can be kept and read back.
fn grown_script(rng: &mut Rng, folder: &Folder) -> Made {
    let mut chosen = settings(rng);
    while chosen.base().pow(chosen.digits() as u32) < 100 {
        chosen = settings(rng);
    }
    let id = id(rng, chosen);
    let settings = [chosen.base(), chosen.digits(), chosen.depth()].map(|n| n as u64);
    let mut maker = Maker::new(rng, folder);
    maker.command(Command::Found { settings, id });
    let pace = maker.rng.pick(&[1, 2, 5, 20]);
    while !maker.rng.once_in(pace) && maker.deliver() || maker.begin() {
        if maker.rng.once_in(8) {
            maker.look();
        }
        if maker.rng.once_in(16) {
            maker.withdraw();
        }
    }
    let patience = maker.rng.pick(&[200, 5_000]);
    while !maker.rng.once_in(patience) && maker.deliver() {}
    let version = maker.rng.pick(&[1, 2]);
    maker.command(Command::Save {
        file: b"grown".to_vec(),
        version,
    });
    maker.command(Command::Load {
        file: b"grown".to_vec(),
    });
    maker.end()
}

impl<'a> Maker<'a> {
    fn new(rng: &'a mut Rng, folder: &'a Folder) -> Maker<'a> {
        Maker {
            rng,
            player: Player::new(folder),
            folder,
            made: Made::default(),
        }
    }

    /// With a survey, a panel and the table of every node at the end.
    fn end(mut self) -> Made {
        self.command(Command::Survey { failed: 0 });
        self.command(Command::Panel);
        for node in 0..=self.player.count() as u64 + 1 {
            self.command(Command::Table { node });
        }
        self.made.printed = self.player.printed;
        self.made
    }
}

impl Maker<'_> {
    fn command(&mut self, command: Command) {
        let answer = self.player.play(&command);
        let looks = match command {
            Command::Table { .. } => Some(("table", 1)),
            Command::Panel => Some(("panel", usize::MAX)),
            Command::Sound => Some(("sound", 1)),
            Command::Survey { .. } => Some(("survey", 1)),
            Command::Trace { .. } => Some(("trace", 1)),
            Command::Fill => Some(("fill", 1)),
            _ => None,
        };
        if let Some((name, most)) = looks {
            let lines = answer.lines().take(most);
            self.made
                .looks
                .extend(lines.map(|line| (name, line.to_string())));
        }
        write_line(self.rng, &command, &mut self.made.text);
        self.made.commands.push(command);
    }

    /// Every call but founding and reading is refused 2 here.
    fn before_founding(&mut self) {
        for _ in 0..self.rng.below(5) {
            let (one, other) = (self.number(), self.number());
            let (from, to, sender, receiver) = (one, other, one, other);
            let failed = failed_set(self.rng, 64);
            let file = b"early".to_vec();
            let commands = [
                Command::Table { node: one },
                Command::Panel,
                Command::Sound,
                Command::Verdict,
                Command::Survey { failed },
                Command::Lookup { from, to, failed },
                Command::Deliver { sender, receiver },
                Command::Begin { id: 0, gateway: 1 },
                Command::Withdraw { node: one },
                Command::Save {
                    file: file.clone(),
                    version: one,
                },
                Command::Trace { file },
                Command::Fill,
            ];
            let command = commands[self.rng.below(commands.len())].clone();
            self.command(command);
        }
    }

    /// Begins a join; no longer where there are 64 nodes, which is tried once, or no id is found.
    fn begin(&mut self) -> bool {
        let network = self.player.network();
        let gateways = network.iter().filter(|(_, node)| node.in_system());
        let gateways: Vec<u64> = gateways.map(|(number, _)| number as u64).collect();
        let Some(id) = fresh_id(self.rng, &network) else {
            return false;
        };
        let gateway = self.rng.pick(&gateways);
        self.command(Command::Begin { id, gateway });
        self.player.count() > network.count()
    }

    /// The newest node, which may have attached.
    fn withdraw(&mut self) {
        let node = self.player.count() as u64;
        self.command(Command::Withdraw { node });
    }

    /// Delivers an outstanding request, if there is one.
    fn deliver(&mut self) -> bool {
        let outstanding = self.player.network().outstanding();
        if outstanding.is_empty() {
            return false;
        }
        let (sender, receiver) = self.rng.pick(&outstanding);
        let (sender, receiver) = (sender as u64, receiver as u64);
        self.command(Command::Deliver { sender, receiver });
        true
    }

    fn call(&mut self, call: Call) {
        let command = match call {
            Call::Found { settings, id } => Command::Found { settings, id },
            Call::Begin { id, gateway } => Command::Begin { id, gateway },
            Call::Withdraw { node } => Command::Withdraw { node },
            Call::Deliver { sender, receiver } => Command::Deliver { sender, receiver },
            Call::Lookup { from, to, failed } => Command::Lookup { from, to, failed },
            Call::Verdict => Command::Verdict,
            Call::Survey { failed } => Command::Survey { failed },
            Call::Sound => Command::Sound,
            Call::Write { version } => Command::Save {
                file: self.saved_name(),
                version,
            },
            Call::Read { image } => Command::Load {
                file: self.loaded_name("image", image),
            },
            Call::Trace { trace } => Command::Trace {
                file: self.loaded_name("trace", trace),
            },
            Call::Fill => Command::Fill,
        };
        self.command(command);
    }

    /// One of few, so that a file is written again, by a longer image or a shorter one.
    fn saved_name(&mut self) -> Vec<u8> {
        format!("saved{}", self.rng.below(3)).into_bytes()
    }

    /// A file with these bytes, of a name that starts so; at times one that the script wrote, or that is not there.
    fn loaded_name(&mut self, start: &str, bytes: Vec<u8>) -> Vec<u8> {
        if self.rng.once_in(4) {
            return self.saved_name();
        }
        let file = (format!("{start}{}", self.made.files.len()), bytes);
        self.folder.put(&file);
        let name = file.0.clone().into_bytes();
        self.made.files.push(file);
        name
    }

    /// At times a table, at times a panel, a judgement of soundness or a survey.
    fn look(&mut self) {
        if self.rng.once_in(3) {
            let node = self.number();
            self.command(Command::Table { node });
        }
        if self.rng.once_in(10) {
            self.command(Command::Panel);
        }
        if self.rng.once_in(10) {
            self.command(Command::Sound);
        }
        if self.rng.once_in(10) {
            let count = self.player.count().max(1);
            let failed = failed_set(self.rng, count);
            self.command(Command::Survey { failed });
        }
    }

    /// Mostly a node's number, the newest more often: it is the likeliest to be joining.
    fn number(&mut self) -> u64 {
        let count = self.player.count();
        match self.rng.below(4) {
            _ if count == 0 => self.rng.pick(&[0, 1, 2, 64, 65, 1 << 63, u64::MAX]),
            0 => bad_number(self.rng, count),
            1 => count as u64,
            _ => self.rng.between(1, count as u64),
        }
    }
}

/// The command in some layout, and at times a line without words.
fn write_line(rng: &mut Rng, command: &Command, text: &mut Vec<u8>) {
    let empty: [&[u8]; 5] = [b"\n", b"# verdict\n", b" \t\r\n", b"\t#\n", b"##\r\n"];
    if rng.once_in(8) {
        text.extend(rng.pick(&empty));
    }
    let blanks: [&[u8]; 6] = [b" ", b" ", b" ", b"\t", b"  ", b" \t "];
    let ends: [&[u8]; 7] = [b"", b"", b" ", b"\r", b"\t\r", b" # a comment", b"#table 1"];
    if rng.once_in(6) {
        text.extend(rng.pick(&blanks));
    }
    for (place, word) in command_words(rng, command).into_iter().enumerate() {
        if place > 0 {
            text.extend(rng.pick(&blanks));
        }
        text.extend(word);
    }
    text.extend(rng.pick(&ends));
    text.push(b'\n');
}

fn command_words(rng: &mut Rng, command: &Command) -> Vec<Vec<u8>> {
    let mut number = |n: u64| format!("{}{n}", zeros(rng));
    let texts: Vec<String> = match command {
        Command::Found { settings, id } => {
            let [base, digits, depth] = settings.map(&mut number);
            vec!["found".into(), base, digits, depth, hexadecimal(rng, *id)]
        }
        Command::Begin { id, gateway } => {
            let gateway = number(*gateway);
            vec!["begin".into(), hexadecimal(rng, *id), gateway]
        }
        Command::Withdraw { node } => vec!["withdraw".into(), number(*node)],
        Command::Deliver { sender, receiver } => {
            vec!["deliver".into(), number(*sender), number(*receiver)]
        }
        Command::Lookup { from, to, failed } => {
            let words = vec!["lookup".into(), number(*from), number(*to)];
            [words, without(rng, *failed)].concat()
        }
        Command::Verdict => vec!["verdict".into()],
        Command::Survey { failed } => [vec!["survey".into()], without(rng, *failed)].concat(),
        Command::Sound => vec!["sound".into()],
        Command::Save { file, version } => {
            let version = number(*version).into_bytes();
            let words = vec![b"save".to_vec(), file.clone(), version];
            let unsaid = words[2] == b"1" && rng.once_in(2);
            return words[..words.len() - usize::from(unsaid)].to_vec();
        }
        Command::Load { file } => return vec![b"load".to_vec(), file.clone()],
        Command::Trace { file } => return vec![b"trace".to_vec(), file.clone()],
        Command::Table { node } => vec!["table".into(), number(*node)],
        Command::Panel => vec!["panel".into()],
        Command::Fill => vec!["fill".into()],
    };
    texts.into_iter().map(String::into_bytes).collect()
}

/// The words of failed nodes: in any order, some twice, and at times with numbers that mean nothing. Of none mostly nothing.
fn without(rng: &mut Rng, failed: u64) -> Vec<String> {
    let nodes = (1..=64).filter(|node| failed >> (node - 1) & 1 == 1);
    let mut numbers: Vec<u64> = nodes.collect();
    if rng.once_in(4) {
        let nothing = [0, 65, 100, 1 << 32, 1 << 63, u64::MAX];
        numbers.extend((0..rng.between(1, 3)).map(|_| rng.pick(&nothing)));
    }
    if !numbers.is_empty() && rng.once_in(3) {
        numbers.push(rng.pick(&numbers));
    }
    if rng.once_in(2) {
        numbers.sort_by_cached_key(|_| rng.word());
    }
    let words = numbers
        .iter()
        .map(|number| format!("{}{number}", zeros(rng)));
    let without = (!numbers.is_empty()).then_some("without".to_string());
    without.into_iter().chain(words).collect()
}

/// Mostly none.
fn zeros(rng: &mut Rng) -> String {
    "0".repeat(rng.pick(&[0, 0, 0, 0, 0, 0, 1, 30]))
}

fn hexadecimal(rng: &mut Rng, id: u32) -> String {
    let zeros = zeros(rng);
    if rng.once_in(4) {
        format!("{zeros}{id:X}")
    } else {
        format!("{zeros}{id:x}")
    }
}

/// The program prints the same and leaves the same files. Also counts the looks by what they were answered.
fn agree(made: Made, ours: &Folder, seed: u64, looks: &mut BTreeMap<String, usize>) {
    let theirs = Folder::holding(&made.files);
    let text = String::from_utf8_lossy(&made.text);
    let printed = replay(&made.text, &theirs);
    assert_eq!(printed, made.printed, "seed {seed}:\n{text}");
    assert_eq!(theirs.files(), ours.files(), "seed {seed}:\n{text}");
    for (name, answer) in made.looks {
        *looks.entry(kind(name, &answer)).or_default() += 1;
    }
}

/// What random scripts must meet.
const PRINTED: [&str; 11] = [
    " at record ",
    "withdraw: node ",
    "refused 19: ",
    "refused 20: ",
    "refused 21: ",
    "lookup: lost ",
    "refused 4: ",
    "refused 24: ",
    "fill: 0 additions\n",
    "fill: 1 addition\n",
    " gains ",
];

#[test]
fn random_scripts_print_what_the_second_engine_answers() {
    let mut looks = BTreeMap::new();
    let mut printed = PRINTED.map(|words| (words, 0));
    for seed in seeds(0, 150) {
        let ours = Folder::new();
        let made = script(&mut Rng::new(seed), 200, &ours);
        for (words, times) in &mut printed {
            *times += made.printed.matches(*words).count();
        }
        agree(made, &ours, seed, &mut looks);
    }
    println!("{printed:?}, {looks:?}");
    assert!(printed.iter().all(|&(_, times)| times > 0));
    let wanted = [
        "table refused 2",
        "table refused 9",
        "table settled",
        "table copying",
        "table waiting",
        "table notifying",
        "panel refused 2",
        "panel settled",
        "panel copying",
        "panel waiting",
        "panel notifying",
        "sound refused 2",
        "sound sound",
        "survey refused 2",
        "survey pairs",
        "trace refused 9",
        "trace refused 22",
        "trace refused 23",
        "trace accepted",
        "trace read",
        "fill refused 2",
        "fill refused 15",
        "fill additions",
    ];
    assert!(wanted.iter().all(|&kind| looks.contains_key(kind)));
}

#[test]
fn networks_of_64_nodes_print_what_the_second_engine_answers() {
    let mut looks = BTreeMap::new();
    let (mut full, mut kept, mut withdrawn) = (0, 0, 0);
    for seed in seeds(1_000, 40) {
        let ours = Folder::new();
        let made = grown_script(&mut Rng::new(seed), &ours);
        full += made.printed.matches("refused 11: ").count();
        kept += made.printed.matches("save: ").count();
        withdrawn += made.printed.matches("withdraw: ").count();
        agree(made, &ours, seed, &mut looks);
    }
    println!("{full} full, {kept} kept, {withdrawn} withdrawn, {looks:?}");
    assert!(full > 0 && kept > 0 && withdrawn > 0);
}

/// A look by what it was answered: its refusal, or the node's status, or the word that ends the line.
fn kind(name: &str, answer: &str) -> String {
    let words: Vec<&str> = answer.split([' ', ':']).collect();
    if let ["refused", number, ..] = words[..] {
        return format!("{name} refused {number}");
    }
    let word = match name {
        "table" | "panel" => answer.split(", ").nth(1),
        _ => answer.split(' ').next_back(),
    };
    format!("{name} {}", word.expect("a word"))
}

#[test]
fn random_scripts_are_read_as_the_commands_that_they_were_made_of() {
    for seed in seeds(500, 50) {
        let folder = Folder::new();
        let made = script(&mut Rng::new(seed), 100, &folder);
        let read = lines(&made.text)
            .map(|(_, line)| line)
            .filter(|line| *line != Line::Empty);
        let written = made.commands.iter().cloned().map(Line::Command);
        assert!(read.eq(written), "seed {seed}");
    }
}
