//! Random call lists. The generator answers its own lines as it writes them, so that it knows which nodes live.

mod arguments;

use crate::calls::{Call, Line};
use crate::choose;
use crate::driver::Reference;
use crate::limits::{Limits, OWN};
use crate::noise;
#[cfg(feature = "port")]
use crate::parse::parse;
use crate::profiles::{Act, PROFILES, Profile, Size, named};
use crate::random::Random;
use crate::texts::{self, Texts};
use crate::tree::Document;

/// The names of the kinds of list.
#[must_use]
pub fn profiles() -> Vec<&'static str> {
    PROFILES.iter().map(|profile| profile.name).collect()
}

/// A list of about `count` calls that ends with a dump; none where no kind has this name.
#[must_use]
pub fn generate(seed: u64, count: usize, profile: &str) -> Option<String> {
    let profile = named(profile)?;
    let mut generator = Generator::new(Random::new(seed), profile);
    generator.restart();
    while generator.lines < count {
        let act = generator.act(profile);
        generator.perform(act);
    }
    generator.write(&Line::Dump);
    Some(generator.out)
}

/// The calls of such a list, for documents of other limits: its other lines are left out.
#[cfg(feature = "port")]
pub(crate) fn calls(seed: u64, count: usize, profile: &str) -> Option<Vec<Call>> {
    let list = generate(seed, count, profile)?;
    let lines = list.lines().filter_map(|line| parse(line.as_bytes()));
    Some(lines.filter_map(|line| if let Line::Call(call) = line { Some(call) } else { None }).collect())
}

pub(crate) struct Generator {
    pub(crate) random: Random,
    profile: &'static Profile,
    texts: Texts,
    reference: Reference,
    /// The list.
    pub(crate) out: String,
    /// How many lines of it are calls or would be.
    pub(crate) lines: usize,
    /// While set, lines are kept here and not in the list.
    script: Option<Vec<Line>>,
}

impl Generator {
    fn new(random: Random, profile: &'static Profile) -> Self {
        Generator {
            random,
            profile,
            texts: Texts::new(profile.odd, profile.broken),
            reference: Reference::fresh(OWN),
            out: String::new(),
            lines: 0,
            script: None,
        }
    }

    /// A line of the list, answered here as well.
    fn write(&mut self, line: &Line) {
        self.reference.answer(line);
        match &mut self.script {
            Some(script) => script.push(line.clone()),
            None => self.raw(&line.to_string()),
        }
    }

    /// A line that need not be one of the format.
    pub(crate) fn raw(&mut self, line: &str) {
        self.out += line;
        self.out += "\n";
        self.lines += 1;
    }

    fn document(&self) -> &Document {
        &self.reference.document
    }

    /// One of the profile's acts, each as often as its weight says.
    fn act(&mut self, profile: &Profile) -> Act {
        let total: usize = profile.acts.iter().map(|(_, weight)| weight).sum();
        let mut left = self.random.below(total);
        for (act, weight) in profile.acts {
            if left < *weight {
                return *act;
            }
            left -= weight;
        }
        unreachable!("the weights add to the total")
    }

    fn perform(&mut self, act: Act) {
        match act {
            Act::Restart => self.perhaps_restart(),
            Act::Productions => self.productions(),
            Act::Replay => self.replay(),
            Act::Noise => noise::line(self),
            Act::Ranges => {
                let node = self.node(choose::container);
                self.write(&Line::Ranges(node));
            }
            Act::OrderKeys => self.order_keys(),
            _ => {
                let call = self.call(act);
                self.write(&Line::Call(call));
                self.look();
            }
        }
    }

    /// Now and then the whole state, the more seldom the larger it is.
    fn look(&mut self) {
        let slots = self.document().nodes.len();
        if self.script.is_none() && self.random.below(40 + 3 * slots) == 0 {
            self.write(&Line::Dump);
        }
    }

    fn restart(&mut self) {
        let limits = match self.profile.size {
            Size::Own => OWN,
            Size::Small => self.small_limits(),
        };
        self.write(&Line::Limits(limits));
    }

    /// A new document. Sometimes the limits are ones that Start refuses, and the old one stays.
    fn perhaps_restart(&mut self) {
        if self.random.chance(100) {
            let mut numbers = OWN.numbers();
            let strange = [0, 65_537, 262_145, 131_073, 16_777_217, 1_048_577, 1 << 32, u64::MAX];
            numbers[self.random.below(8)] = self.random.pick(&strange);
            let limits = Limits::from_numbers(&numbers).expect("eight numbers");
            self.write(&Line::Limits(limits));
        } else if self.random.chance(100) {
            self.write(&Line::Fresh);
        } else {
            self.restart();
        }
    }

    /// All small, or one of them.
    fn small_limits(&mut self) -> Limits {
        let small = [1 + self.random.below(24), 60, 40, 40, 12, 60, 6, 24];
        let one = self.random.below(8);
        let all = self.random.chance(400);
        let mut numbers = OWN.numbers();
        for (place, number) in numbers.iter_mut().enumerate() {
            if all || place == one {
                *number = 1 + self.random.below(small[place]) as u64 - u64::from(place > 0);
            }
        }
        Limits::from_numbers(&numbers).expect("eight numbers")
    }

    /// One pass over the edges, each in four places, on a document of its own.
    fn productions(&mut self) {
        let root = self.document().root();
        self.write(&Line::Call(Call::AppendElement { parent: root, namespace: None, local: b"e".to_vec() }));
        let parent = self.document().root_element().unwrap_or(root);
        for edge in texts::edges() {
            let alone = edge.to_string().into_bytes();
            let behind = format!("a{edge}").into_bytes();
            let calls = [
                Call::AppendElement { parent, namespace: None, local: alone.clone() },
                Call::AppendPi { parent, target: behind, data: Vec::new() },
                Call::AppendText { parent, text: alone.clone() },
                Call::AppendComment { parent, text: alone },
            ];
            for call in calls {
                self.write(&Line::Call(call));
            }
        }
        self.restart();
    }

    /// A short list, and the same under limits that it fills exactly, all or one of them, and which may be one or two below.
    fn replay(&mut self) {
        let (script, needed) = self.short_list();
        for below in [0, 1, 1 + self.random.below(3)] {
            let limits = self.tight(&needed, below as u64);
            self.write(&Line::Limits(limits));
            for line in &script {
                self.write(line);
                self.look();
            }
        }
    }

    /// Calls on a document with ample limits, not yet in the list, and the most that it held.
    fn short_list(&mut self) -> (Vec<Line>, Limits) {
        let profile = named(if self.random.chance(500) { "mixed" } else { "reuse" });
        let profile = profile.expect("a profile of this name");
        self.reference = Reference::fresh(OWN);
        self.script = Some(Vec::new());
        let mut needed = Limits::held(self.document());
        for _ in 0..10 + self.random.below(50) {
            match self.act(profile) {
                Act::Restart => {}
                act => self.perform(act),
            }
            needed = needed.join(&Limits::held(self.document()));
        }
        (self.script.take().unwrap_or_default(), needed)
    }

    fn tight(&mut self, needed: &Limits, below: u64) -> Limits {
        let mut numbers = needed.numbers();
        let one = self.random.below(8);
        let others_ample = self.random.chance(700);
        for (place, number) in numbers.iter_mut().enumerate() {
            if place == one {
                *number = number.saturating_sub(below).max(u64::from(place == 0));
            } else if others_ample {
                *number = OWN.numbers()[place];
            }
        }
        Limits::from_numbers(&numbers).expect("eight numbers")
    }

    /// Keys before and after the order is renewed.
    fn order_keys(&mut self) {
        for _ in 0..3 {
            let node = self.node(choose::any);
            self.write(&Line::Call(Call::OrderKey(node)));
            if self.random.chance(300) {
                self.write(&Line::Call(Call::DocumentOrder));
            }
        }
    }
}
