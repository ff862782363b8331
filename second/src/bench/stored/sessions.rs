//! Recorded sessions in 01's order: each step's refusals, then a card's life. They reach every
//! rule that a bench file can reach.

mod bank;
mod life;
mod log;
mod pins;
mod steps;

use crate::bench::scenario::Scenario;

pub fn file() -> Vec<u8> {
    let parts: [fn(&mut Scenario); 20] = [
        steps::no_card,
        steps::malformed_commands,
        steps::classes_and_instructions,
        steps::unselected,
        steps::parameters_and_lengths,
        steps::no_channel,
        life::fresh_card,
        life::channels,
        life::personalization,
        pins::pins,
        pins::tries,
        life::access,
        bank::credits,
        life::transactions,
        life::put_data_rules,
        life::chains,
        life::log_and_numbers,
        log::key_sets,
        log::full_log,
        log::updates_inside,
    ];
    let mut scenario = Scenario::new(2);
    for part in parts {
        part(&mut scenario);
    }
    scenario.file
}
