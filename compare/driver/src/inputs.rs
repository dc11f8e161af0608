//! The inputs of each rule: fixed lists (short ones whole, and limits) and random ones.

mod access;
mod bar;
mod bus;
mod capability;
mod declared;
mod file;
mod function;
mod placement;

use std::collections::BTreeSet;

use rules::{Capability, Function, Question, Random};

use crate::duel::{Checked, Duel};

pub struct Rule {
    pub name: &'static str,
    /// Document 01's numbers, or what the rule is.
    pub about: &'static str,
    pub fixed: fn(&mut Duel) -> Checked,
    pub random: Draw,
}

/// The random inputs of a rule.
pub enum Draw {
    /// The fixed list has every input.
    Nothing,
    One(fn(&mut Random) -> Question),
    /// Puts many at a time, ten times as many in all.
    Many(fn(&mut Random, &mut Duel) -> Checked),
}

/// The largest counts of document 01, in one place for the day they change.
pub const MOST_FUNCTIONS: u64 = 8;
pub const MOST_CAPABILITIES: u64 = 16;
pub const MOST_EFFECTS: usize = 32;
pub const MOST_CONFIG_BYTES: u64 = 32;

/// Damage may go past a limit; that is refusal 4, which the Rust does not have.
pub fn within_limits(question: &Question) -> bool {
    let capabilities = |all: &[Capability]| {
        let effects: usize = all.iter().map(|it| it.effects.len()).sum();
        all.len() as u64 <= MOST_CAPABILITIES && effects <= MOST_EFFECTS
    };
    let function = |it: &Function| it.config_bytes.len() as u64 <= MOST_CONFIG_BYTES && capabilities(&it.capabilities);
    match question {
        Question::FirstBadEffect { effects, .. } => effects.len() <= MOST_EFFECTS,
        Question::Layout { capabilities: all }
        | Question::EffectFor { capabilities: all, .. }
        | Question::Modes { capabilities: all }
        | Question::View { capabilities: all, .. } => capabilities(all),
        Question::Place { wishes, .. } => {
            wishes.iter().map(|wish| wish.device).collect::<BTreeSet<_>>().len() as u64 <= MOST_FUNCTIONS
        }
        Question::FirstBadByte { function: it }
        | Question::PowerOn { function: it }
        | Question::Function { function: it, .. } => function(it),
        Question::Bus { cards, .. } => {
            cards.len() as u64 <= MOST_FUNCTIONS && cards.iter().all(|card| function(&card.function))
        }
        _ => true,
    }
}

pub const RULES: [Rule; 17] = [
    Rule { name: "check", about: "18", fixed: access::check, random: Draw::Nothing },
    Rule { name: "size_ok", about: "7", fixed: bar::size_ok, random: Draw::One(bar::random_size) },
    Rule { name: "size_mask", about: "size mask", fixed: bar::size_mask, random: Draw::Nothing },
    Rule { name: "shown", about: "BAR register", fixed: bar::shown, random: Draw::One(bar::random_shown) },
    Rule { name: "bar_write", about: "probe or relocate", fixed: bar::write, random: Draw::One(bar::random_write) },
    Rule { name: "body_ok", about: "10", fixed: capability::body_ok, random: Draw::Nothing },
    Rule {
        name: "first_bad_effect",
        about: "11",
        fixed: capability::effects,
        random: Draw::One(capability::random_effects),
    },
    Rule { name: "layout", about: "12, 13", fixed: capability::layout, random: Draw::One(capability::random_layout) },
    Rule { name: "effect_for", about: "19", fixed: capability::touch, random: Draw::One(capability::random_touch) },
    Rule { name: "modes", about: "byte modes", fixed: capability::modes, random: Draw::One(capability::random_modes) },
    Rule {
        name: "view",
        about: "capability view",
        fixed: capability::view,
        random: Draw::One(capability::random_view),
    },
    Rule { name: "place", about: "14 to 17", fixed: placement::place, random: Draw::One(placement::random_place) },
    Rule {
        name: "first_bad_byte",
        about: "9",
        fixed: function::config_bytes,
        random: Draw::One(function::random_config_bytes),
    },
    Rule {
        name: "power_on",
        about: "image and masks",
        fixed: function::power_on,
        random: Draw::One(function::random_power_on),
    },
    Rule {
        name: "function",
        about: "steps on a function",
        fixed: function::steps,
        random: Draw::One(function::random_steps),
    },
    Rule { name: "bus", about: "steps on a bus", fixed: bus::steps, random: Draw::One(bus::random_steps) },
    Rule { name: "file", about: "1 to 17", fixed: file::short, random: Draw::Many(file::random_family) },
];
