//! Two sides, one question after the other; the first difference, made small, ends it.

use std::time::{Duration, Instant};

use rules::{Asked, Question, Reply, Rules, Vary, agree, ask};

use crate::tally::Tally;

/// The smallest question found on which the two sides differ.
#[derive(Debug)]
pub struct Difference {
    pub question: Question,
    /// What was expected, of the left side or of the second.
    pub expected: Asked<Reply>,
    pub by_second: bool,
    pub right: Asked<Reply>,
}

/// Ends a list of inputs early when the sides differ.
pub type Checked = Result<(), Box<Difference>>;

pub struct Duel<'a> {
    left: &'a mut dyn Rules,
    /// Who is asked in its place where the left side has no such input; on a bus always, since it tells more.
    second: Option<&'a mut dyn Rules>,
    right: &'a mut dyn Rules,
    /// Whether a difference is made small.
    pub shrinks: bool,
    /// Only every n-th of a fixed list; 1 for all.
    pub every: u64,
    offered: u64,
    pub asked: u64,
    /// Questions that only the second could be asked.
    pub by_second: u64,
    /// Questions that neither can be asked.
    pub not_asked: u64,
    pub tally: Tally,
    /// What the progress line calls this; empty for none.
    label: &'static str,
    began: Instant,
    told: Instant,
}

impl<'a> Duel<'a> {
    pub fn new(left: &'a mut dyn Rules, right: &'a mut dyn Rules, every: u64, label: &'static str) -> Self {
        let now = Instant::now();
        Self {
            left,
            second: None,
            right,
            shrinks: true,
            every,
            offered: 0,
            asked: 0,
            by_second: 0,
            not_asked: 0,
            tally: Tally::default(),
            label,
            began: now,
            told: now,
        }
    }

    pub fn or_ask(mut self, second: Option<&'a mut dyn Rules>) -> Self {
        self.second = second;
        self
    }

    /// One question of a fixed list.
    pub fn listed(&mut self, question: impl FnOnce() -> Question) -> Checked {
        self.offered += 1;
        if self.offered.is_multiple_of(self.every) { self.put(&question()) } else { Ok(()) }
    }

    pub fn put(&mut self, question: &Question) -> Checked {
        let expected = self.expected(question);
        let Some((by_second, _)) = expected.first() else {
            self.not_asked += 1;
            return Ok(());
        };
        *(if *by_second { &mut self.by_second } else { &mut self.asked }) += 1;
        if self.differs(&expected, question) {
            return Err(Box::new(self.smallest(question.clone())));
        }
        // The last one tells most.
        expected.last().into_iter().for_each(|(_, reply)| self.tally.count(reply));
        self.progress();
        Ok(())
    }

    /// The left side's answer, then the second's where it is wanted; each with whether it is the second's.
    fn expected(&mut self, question: &Question) -> Vec<(bool, Reply)> {
        let mut out: Vec<_> = ask(self.left, question).map(|reply| (false, reply)).into_iter().collect();
        let wanted = out.is_empty() || matches!(question, Question::Bus { .. });
        if let Some(second) = self.second.as_mut().filter(|_| wanted) {
            out.extend(ask(*second, question).map(|reply| (true, reply)));
        }
        out
    }

    pub fn seconds(&self) -> f64 {
        self.began.elapsed().as_secs_f64()
    }

    /// The right side has to answer whatever is expected of it.
    fn differs(&mut self, expected: &[(bool, Reply)], question: &Question) -> bool {
        let right = ask(self.right, question);
        expected.iter().any(|(_, reply)| !right.as_ref().is_some_and(|right| agree(reply, right)))
    }

    fn smallest(&mut self, mut question: Question) -> Difference {
        let shrinks = self.shrinks;
        let mut still = |less: &Question| {
            let expected = self.expected(less);
            self.differs(&expected, less)
        };
        while let Some(smaller) = shrinks.then(|| question.smaller().into_iter().find(&mut still)).flatten() {
            question = smaller;
        }
        let right = ask(self.right, &question);
        let differs = |(_, reply): &(bool, Reply)| !right.as_ref().is_some_and(|right| agree(reply, right));
        let found = self.expected(&question).into_iter().find(differs);
        let by_second = found.as_ref().is_some_and(|(by_second, _)| *by_second);
        Difference { question, expected: found.map(|(_, reply)| reply), by_second, right }
    }

    fn progress(&mut self) {
        const PAUSE: Duration = Duration::from_secs(10);
        if self.label.is_empty() || !(self.asked + self.by_second).is_multiple_of(1024) || self.told.elapsed() < PAUSE {
            return;
        }
        self.told = Instant::now();
        let count = self.asked + self.by_second;
        eprintln!("  .. {} {count} inputs, {:.0} a second", self.label, count as f64 / self.seconds());
    }
}
