//! What replay must print and leave in its folder, by the second engine.

use std::fs;
use std::io::{Read, Write};
use std::path::PathBuf;
use std::str;

use trials::engine::{Engine, Second};
use trials::second::memory::{COUNT, DIGITS, STATE_WORDS, TABLE_BYTES};
use trials::second::network::Network;
use trials::second::{Counts, MOST_ADDED_BYTES};

use crate::language::{lines, Command, Line};
use crate::support::Folder;
use crate::words::{delivered, field, filled, judged, looked_up, panelled, said, shown, surveyed};
use crate::words::{tabled, traced};

/// The longest script that is played.
pub const LONGEST_SCRIPT: usize = 1_048_575;

/// The second engine on zeroed memory, with a folder for the files of its script.
pub struct Player<'a> {
    state: Vec<u64>,
    tables: Vec<u8>,
    folder: &'a Folder,
    pub printed: String,
}

/// What the program must print for a script that it reads, and what it must leave in the folder.
pub fn expected(script: &[u8], folder: &Folder) -> String {
    if script.len() > LONGEST_SCRIPT {
        return format!("the script is longer than {LONGEST_SCRIPT} bytes\n");
    }
    let mut player = Player::new(folder);
    for (number, line) in lines(script) {
        match line {
            Line::Empty => {}
            Line::NotUnderstood => player.print(&format!("line {number}: not understood")),
            Line::Command(command) => drop(player.play(&command)),
        }
    }
    player.printed
}

impl<'a> Player<'a> {
    pub fn new(folder: &'a Folder) -> Player<'a> {
        Player {
            state: vec![0; STATE_WORDS],
            tables: vec![0; TABLE_BYTES],
            folder,
            printed: String::new(),
        }
    }

    /// How many nodes there are; none before a network is founded or read.
    pub fn count(&self) -> usize {
        self.state[COUNT] as usize
    }

    /// The network, once one is founded or read.
    pub fn network(&self) -> Network {
        Network::decode(self.state.first_chunk().expect("there is enough"))
    }

    /// Prints the answer, and also answers it.
    pub fn play(&mut self, command: &Command) -> String {
        let answer = self.answer(command);
        self.print(&answer);
        answer
    }

    fn print(&mut self, line: &str) {
        self.printed += line;
        self.printed.push('\n');
    }

    fn answer(&mut self, command: &Command) -> String {
        let (state, tables) = (&mut self.state, &mut self.tables);
        match command {
            Command::Found { settings, id } => {
                let answer = Second.found(state, tables, *settings, *id);
                said(answer, |_| "found: node 1".into())
            }
            Command::Begin { id, gateway } => {
                let answer = Second.begin(state, tables, *id, *gateway);
                said(answer, |answer| format!("begin: node {}", field(answer, 1)))
            }
            Command::Withdraw { node } => {
                let answer = Second.withdraw(state, tables, *node);
                said(answer, |_| format!("withdraw: node {node}"))
            }
            Command::Deliver { sender, receiver } => {
                said(Second.deliver(state, tables, *sender, *receiver), delivered)
            }
            Command::Lookup { from, to, failed } => {
                let answer = Second.lookup(state, tables, *from, *to, *failed);
                said(answer, looked_up)
            }
            Command::Verdict => said(Second.verdict(state, tables), judged),
            Command::Survey { failed } => {
                let mut counts = Counts::default();
                let answer = Second.survey(state, tables, *failed, &mut counts);
                said(answer, |_| surveyed(state[DIGITS] as usize, &counts))
            }
            Command::Sound => {
                let answer = Second.sound(state, tables);
                said(answer, |_| "sound: the state is sound".into())
            }
            Command::Save { file, version } => self.save(file, *version),
            Command::Load { file } => self.load(file),
            Command::Trace { file } => self.trace(file),
            Command::Fill => {
                let mut list = vec![0; MOST_ADDED_BYTES];
                let answer = Second.fill(state, tables, &mut list);
                said(answer, |answer| filled(answer, &list))
            }
            Command::Table { node } => shown(tabled(state, tables, *node)),
            Command::Panel => shown(panelled(state, tables)),
        }
    }

    /// A file's path. One whose name is no UTF-8 text cannot be opened.
    fn path(&self, file: &[u8]) -> Option<PathBuf> {
        Some(self.folder.path().join(str::from_utf8(file).ok()?))
    }

    /// Whether the file has these bytes now.
    fn kept(&self, file: &[u8], image: &[u8]) -> bool {
        let Some(path) = self.path(file) else {
            return false;
        };
        let written = fs::File::create(path).and_then(|mut out| out.write_all(image));
        written.is_ok()
    }

    /// A file is made, or emptied, only where writing is not refused.
    fn save(&mut self, file: &[u8], version: u64) -> String {
        let mut image = vec![0; 65_536];
        let answer = Second.write(&mut self.state, &mut self.tables, version, &mut image);
        said(answer, |answer| {
            let image = &image[..(answer >> 8) as usize];
            if self.kept(file, image) {
                format!("save: {} bytes", image.len())
            } else {
                "save: the file cannot be written".into()
            }
        })
    }

    fn load(&mut self, file: &[u8]) -> String {
        let Some(image) = self.bytes(file) else {
            return "load: the file cannot be read".into();
        };
        let answer = Second.read(&mut self.state, &mut self.tables, &image);
        said(answer, |_| format!("load: {} bytes", image.len()))
    }

    fn trace(&mut self, file: &[u8]) -> String {
        let Some(trace) = self.bytes(file) else {
            return "trace: the file cannot be read".into();
        };
        let answer = Second.trace(&mut self.state, &mut self.tables, &trace);
        traced(answer, &trace)
    }

    /// What a file has, if it can be opened. A folder can be opened, and has no bytes.
    fn bytes(&self, file: &[u8]) -> Option<Vec<u8>> {
        let mut opened = fs::File::open(self.path(file)?).ok()?;
        let mut bytes = vec![];
        let _ = opened.read_to_end(&mut bytes);
        Some(bytes)
    }
}
