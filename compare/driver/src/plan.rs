//! How much of each rule is compared, and the report.

use std::time::Instant;

use rules::{Random, Rules, Vary};

use crate::{
    duel::{Checked, Duel},
    inputs::{Draw, RULES, Rule, within_limits},
};

pub struct Plan {
    pub seed: u64,
    /// Random inputs a rule; a quarter as many damaged ones.
    pub random: u64,
    /// Only every n-th of the fixed lists.
    pub every: u64,
    /// One rule only.
    pub rule: Option<String>,
    /// One side only, beside the Rust: "model" or "ours".
    pub side: Option<String>,
}

/// Who is compared with whom, and what the report calls them.
pub struct Sides<'a> {
    pub left: (&'a str, &'a mut dyn Rules),
    /// Asked where the left side has no such input.
    pub second: Option<(&'a str, &'a mut dyn Rules)>,
    pub right: (&'a str, &'a mut dyn Rules),
    /// What is missing for a rule to be compared.
    pub lacks: fn(&str) -> Option<&'static str>,
}

impl Default for Plan {
    fn default() -> Self {
        Self { seed: 1, random: 1_000_000, every: 1, rule: None, side: None }
    }
}

impl Plan {
    pub fn from_words(mut words: impl Iterator<Item = String>) -> Result<Self, String> {
        let mut plan = Self::default();
        while let Some(word) = words.next() {
            let number = |next: Option<String>| next.and_then(|text| text.parse().ok()).ok_or(word.clone());
            match word.as_str() {
                "--quick" => (plan.random, plan.every) = (20_000, 61),
                "--seed" => plan.seed = number(words.next())?,
                "--inputs" => plan.random = number(words.next())?,
                "--rule" => plan.rule = words.next().filter(|name| RULES.iter().any(|rule| rule.name == name)),
                "--side" => plan.side = words.next().filter(|name| ["model", "ours"].contains(&name.as_str())),
                _ => return Err(word),
            }
            if word == "--rule" && plan.rule.is_none() || word == "--side" && plan.side.is_none() {
                return Err(word);
            }
        }
        Ok(plan)
    }

    pub fn rules(&self) -> impl Iterator<Item = &'static Rule> {
        RULES.iter().filter(|rule| self.rule.as_ref().is_none_or(|name| name == rule.name))
    }

    /// Fixed lists, then random inputs, then damaged copies of such.
    pub fn run(&self, rule: &Rule, duel: &mut Duel) -> Checked {
        (rule.fixed)(duel)?;
        let mut random = Random::new(seed_of(self.seed, rule.name));
        let input = match rule.random {
            Draw::Nothing => return Ok(()),
            Draw::One(input) => input,
            Draw::Many(inputs) => return self.until(10 * self.random, duel, |duel| inputs(&mut random, duel)),
        };
        self.until(self.random, duel, |duel| duel.put(&input(&mut random)))?;
        self.until(self.random / 4, duel, |duel| {
            let mut question = input(&mut random);
            for _ in 0..1 + random.below(3) {
                question.damage(&mut random);
            }
            if within_limits(&question) { duel.put(&question) } else { Ok(()) }
        })
    }

    /// Goes on until so many were asked, some of them the left side cannot be; or the second, where the left side has none.
    fn until(&self, count: u64, duel: &mut Duel, mut one: impl FnMut(&mut Duel) -> Checked) -> Checked {
        let (began, beyond) = (duel.asked, duel.by_second + count);
        for _ in 0..8 * count {
            if duel.asked >= began + count || duel.asked == began && duel.by_second >= beyond {
                break;
            }
            one(duel)?;
        }
        Ok(())
    }

    pub fn wants(&self, side: &str) -> bool {
        self.side.as_ref().is_none_or(|name| name == side)
    }

    /// True if no rule shows a difference.
    pub fn compare(&self, sides: Sides) -> bool {
        let Sides { left: (left_name, left), mut second, right: (right_name, right), lacks } = sides;
        let began = Instant::now();
        let (mut all, mut beyond, mut without) = (0, 0, 0);
        println!("{left_name} and {right_name}, seed {}", self.seed);
        if let Some((name, _)) = &second {
            println!(
                "Where {left_name} has no such input, {name} is asked: column `beyond`. On a bus {name} is asked too."
            );
        }
        println!("{:18}{:>10}{:>10}{:>10}{:>11}  about", "rule", "inputs", "beyond", "a second", "not asked");
        for rule in self.rules() {
            if let Some(what) = lacks(rule.name) {
                println!("{:18}not compared: there is no {what}", rule.name);
                without += 1;
                continue;
            }
            let (second_name, another): (_, Option<&mut dyn Rules>) = match &mut second {
                Some((name, side)) => (*name, Some(&mut **side)),
                None => ("", None),
            };
            let mut duel = Duel::new(left, right, self.every, rule.name).or_ask(another);
            let checked = self.run(rule, &mut duel);
            let count = duel.asked + duel.by_second;
            let rate = count as f64 / duel.seconds();
            let (asked, by_second, not_asked) = (duel.asked, duel.by_second, duel.not_asked);
            println!("{:18}{asked:>10}{by_second:>10}{rate:>10.0}{not_asked:>11}  {}", rule.name, rule.about);
            println!("    {}", duel.tally);
            if let Err(difference) = checked {
                difference.tell(left_name, second_name, right_name);
                return false;
            }
            all += asked;
            beyond += by_second;
        }
        let seconds = began.elapsed().as_secs_f64();
        println!(
            "{all} inputs and {beyond} beyond, no difference, {without} rules not compared, {seconds:.0} seconds\n"
        );
        true
    }
}

/// Each rule draws its own numbers, so that one rule alone gives the same inputs.
pub fn seed_of(seed: u64, name: &str) -> u64 {
    name.bytes().fold(seed, |seed, byte| Random::new(seed ^ u64::from(byte)).u64())
}
