//! Stories by chance.

use std::collections::BTreeSet;

use reference::call::Answer;
use reference::plain::Plain;
use reference::prng::Prng;
use reference::refusal::Refusal;

use crate::story::{letters, Command, Story, SIZES};

const COMMANDS: usize = 12;
const LETTERS: &[u8] = b"ABCDEFGHIJ";

impl Story {
    /// Two volumes with backups, collections and restores that the box takes; the second may be
    /// retired.
    pub fn random(seed: u64) -> Self {
        let mut prng = Prng::seeded(seed);
        let mut plain = Plain::new(SIZES);
        let mut commands = vec![Command::Format];
        for volume in 0..2 {
            let keep = prng.between(1, 5);
            let enrol = Command::Enrol { volume, keep };
            plain.call(&enrol.call().expect("a call of the box"));
            commands.push(enrol);
        }
        let mut day = 0;
        while commands.len() < 3 + COMMANDS {
            day += prng.between(1, 3);
            let command = draw(&mut prng, &commands, day);
            if is_taken(&mut plain, &commands, &command) {
                commands.push(command);
            }
        }
        Story(commands)
    }
}

fn draw(prng: &mut Prng, commands: &[Command], day: u16) -> Command {
    let volume = prng.between(0, 1);
    match prng.below(16) {
        0..=3 => Command::Collect { day },
        4 | 5 => Command::Restore {
            volume,
            number: prng.between(1, 4),
        },
        6 => Command::Retire { volume: 1, day },
        _ => Command::Backup {
            volume,
            day,
            image: changed(prng, &letters(commands.iter(), volume)),
        },
    }
}

/// The image with some blocks changed, and perhaps of another length, also of none.
fn changed(prng: &mut Prng, image: &str) -> String {
    let mut image = image.as_bytes().to_vec();
    image.resize(usize::from(prng.between(0, SIZES.lbns)), b'A');
    for letter in &mut image {
        if prng.once_in(2) {
            *letter = prng.pick(LETTERS);
        }
    }
    String::from_utf8(image).expect("letters")
}

/// Whether the box takes the command, and room stays for one more block.
fn is_taken(plain: &mut Plain, commands: &[Command], command: &Command) -> bool {
    if let Command::Restore { volume, number } = command {
        let read = plain.read(*volume, *number, 0);
        return matches!(read, Ok(_) | Err(Refusal::Unmapped));
    }
    let after = || commands.iter().chain([command]);
    let current: BTreeSet<u8> = (0..2)
        .flat_map(|volume| letters(after(), volume).into_bytes())
        .collect();
    let Some(call) = command.call() else {
        return false;
    };
    current.len() < usize::from(SIZES.blocks) && !matches!(plain.call(&call), Answer::Refused(_))
}
