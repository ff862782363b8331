//! Random bench files from a seed. The generator plays the terminal: it installs cards, opens
//! channels, signs commands and enciphers keys and PINs, and now and then it errs at some step of
//! 01's order. With cuts, about half of the calls that store get a small limit.

mod admin;
mod channel;
mod cuts;
mod noise;
mod player;
mod setup;
mod values;
mod wallet;

use player::Player;

/// A file of about so many commands.
pub fn file(seed: u64, commands: u64, cuts: bool) -> Vec<u8> {
    let mut player = Player::new(seed, cuts);
    while (player.scenario.commands as u64) < commands {
        player.act();
    }
    player.scenario.file
}
