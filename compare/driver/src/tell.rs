//! A difference, told so that a reader sees where it lies.

use rules::{After, Asked, End, Image, Kept, Question, Reply, Started, Story};

use crate::duel::Difference;

impl Difference {
    pub fn tell(&self, left: &str, second: &str, right: &str) {
        println!("DIFFERENT, numbers in hexadecimal\n  asked {}", self.question.shortened());
        let (expected, right_says) = self.replies();
        println!("  {}: {expected}\n  {right}: {right_says}", if self.by_second { second } else { left });
    }

    /// What each side says, where they differ.
    pub fn replies(&self) -> (String, String) {
        match (&self.expected, &self.right) {
            (Some(Reply::Image(left)), Some(Reply::Image(right))) => (image(left, right), image(right, left)),
            (Some(Reply::Story(left)), Some(Reply::Story(right))) => (story(left, right), story(right, left)),
            (Some(Reply::File(Ok(left))), Some(Reply::File(Ok(right)))) => (started(left, right), started(right, left)),
            (left, right) => (whole(left), whole(right)),
        }
    }
}

fn whole(reply: &Asked<Reply>) -> String {
    reply.as_ref().map_or("no such input".into(), |reply| format!("{reply:x?}"))
}

fn image(one: &Image, other: &Image) -> String {
    format!("bytes {}, masks {}", bytes(&one.bytes, &other.bytes), bytes(&one.masks, &other.masks))
}

/// The bytes that differ, with their offsets.
fn bytes(one: &[u8; 256], other: &[u8; 256]) -> String {
    let differ = (0..256).filter(|&at| one[at] != other[at]);
    let told: Vec<String> = differ.map(|at| format!("{:#04x} at {at:#04x}", one[at])).collect();
    if told.is_empty() { "the same".into() } else { told.join(", ") }
}

fn story(one: &Story, other: &Story) -> String {
    let answers = one.answers.iter().zip(&other.answers).enumerate();
    let answers = answers.filter(|(_, (a, b))| a != b).map(|(at, (a, _))| format!("step {at} {a:x?}"));
    let ends = one.ends.iter().zip(&other.ends).enumerate();
    let ends = ends.filter(|(_, (a, b))| a != b).map(|(at, (a, b))| format!("end {at} {}", end(a, b)));
    let after = one.after.iter().flatten().zip(other.after.iter().flatten()).enumerate();
    let after = after.filter(|(_, (a, b))| a != b).map(|(at, (a, b))| format!("after {at} steps {}", then(a, b)));
    answers.chain(ends).chain(after).collect::<Vec<_>>().join("; ")
}

fn then(one: &After, other: &After) -> String {
    let differ = one.changed.iter().filter(|it| !other.changed.contains(it));
    let changed = differ.map(|it| kept(it, other.changed.iter().find(|also| also.device == it.device)));
    let found = (one.found != other.found).then(|| format!("found {:x?}", one.found));
    changed.chain(found).collect::<Vec<_>>().join(", ")
}

/// A function on a bus; whole if the other side has none.
fn kept(one: &Kept, other: Option<&Kept>) -> String {
    let Some(other) = other else { return format!("{one:x?}") };
    let rest = (one.bars, &one.capabilities, &one.effects, one.revision);
    let images = [(&one.live, &other.live), (&one.power_on, &other.power_on), (&one.masks, &other.masks)];
    let [live, power_on, masks] = images.map(|(one, other)| bytes(one, other));
    format!("device {:x} live {live}, power-on {power_on}, masks {masks}, then {rest:x?}", one.device)
}

fn started(one: &Started, other: &Started) -> String {
    let after = |it: &Started| After { changed: it.functions.clone(), found: None };
    format!("{:x?} {}", one.aperture, then(&after(one), &after(other)))
}

fn end(one: &End, other: &End) -> String {
    let rest = (one.addresses, one.revision, one.command);
    format!("shows {}, then {rest:x?}", bytes(&one.shown, &other.shown))
}

/// A question in few words: fields that are 0, false, empty or none are left out.
pub trait Shortened {
    fn shortened(&self) -> String;
}

impl Shortened for Question {
    fn shortened(&self) -> String {
        without_blanks(&format!("{self:x?}"))
    }
}

/// Works on the text of Debug, which names every field.
fn without_blanks(text: &str) -> String {
    let mut out = text.to_string();
    loop {
        let mut shorter = out.clone();
        for blank in ["0", "false", "[]", "None"] {
            shorter = shorter.replace(&format!(": {blank}, "), ":, ").replace(&format!(": {blank} }}"), ":, }");
        }
        shorter = drop_named_blanks(&shorter);
        if shorter == out {
            return out;
        }
        out = shorter;
    }
}

/// Takes out each `name:, `.
fn drop_named_blanks(text: &str) -> String {
    let mut out = String::new();
    let mut rest = text;
    while let Some(at) = rest.find(":, ") {
        let kept = rest[..at].rfind(|c: char| !c.is_alphanumeric() && c != '_').map_or(0, |at| at + 1);
        out += &rest[..kept];
        rest = &rest[at + 3..];
    }
    out + rest
}

#[cfg(test)]
mod tests {
    use super::without_blanks;

    #[test]
    fn blanks_go() {
        assert_eq!(
            without_blanks("A { a: 0, b: [B { c: 0, d: 1 }, B { c: 2, d: 0 }], e: [] }"),
            "A { b: [B { d: 1 }, B { c: 2, }], }"
        );
    }
}
