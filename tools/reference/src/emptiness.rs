//! Which names no data can fill.
//!
//! The points "end e at least m times" are never built. What matters of them is
//! how often each end must be had, so a thing is described by a set of classes
//! and one number per end (`Profile`), and everything that follows from one
//! class, or from having one end so many times, is found by closing two small
//! relations: arrows within arrows, and classes within classes.

use crate::schema::{ARROWS, CLASSES, ENDS, Fact, Schema};
use crate::set::{Set, close};

/// How often each end is had at the least.
type Least = [u8; ENDS];

fn raise(least: &mut Least, other: &Least) {
    for (times, &more) in least.iter_mut().zip(other) {
        *times = (*times).max(more);
    }
}

/// The same end, tail or head, of another arrow.
fn end_of(arrow: usize, like: usize) -> usize {
    2 * arrow + like % 2
}

/// What the rows make of a thing of which one fact is known.
pub struct Profile {
    /// The classes that it is in.
    pub classes: Set,
    /// How often it has each end.
    pub least: Least,
}

impl Profile {
    /// The arrows that have a pair if the thing exists.
    fn arrows(&self) -> Set {
        let mut arrows = Set::default();
        for (end, &times) in self.least.iter().enumerate() {
            if times > 0 {
                arrows.insert(end / 2);
            }
        }
        arrows
    }
}

/// The rows, sorted by what they do and followed to their ends.
struct Links {
    /// For each arrow, those that every pair of it belongs to.
    arrows: [Set; ARROWS],
    /// For each class, those that every thing in it belongs to.
    classes: [Set; CLASSES],
    /// For each end, some classes of every thing that has it; `classes` leads
    /// from these to all others.
    end_classes: [Set; ENDS],
    /// For each class, how often its own rows say that each end is had.
    least: [Least; CLASSES],
    /// For each class, those that share no thing with it.
    apart: [Set; CLASSES],
    /// For each arrow, those that share no pair with it.
    arrows_apart: [Set; ARROWS],
    /// Each row that says "at most": class, end and how often.
    caps: Vec<(usize, usize, u8)>,
}

impl Links {
    fn of(facts: &[Fact]) -> Links {
        let mut links = Links {
            arrows: [Set::default(); ARROWS],
            classes: [Set::default(); CLASSES],
            end_classes: [Set::default(); ENDS],
            least: [[0; ENDS]; CLASSES],
            apart: [Set::default(); CLASSES],
            arrows_apart: [Set::default(); ARROWS],
            caps: Vec::new(),
        };
        for &fact in facts {
            links.sort_in(fact);
        }
        links.follow();
        links
    }

    fn sort_in(&mut self, fact: Fact) {
        match fact {
            Fact::ClassWithin { narrow, wide } => self.classes[narrow].insert(wide),
            Fact::ClassesApart(a, b) => {
                self.apart[a].insert(b);
                self.apart[b].insert(a);
            }
            Fact::EndWithin { end, class } => self.end_classes[end].insert(class),
            Fact::AtLeast { class, end, times } => {
                let least = &mut self.least[class][end];
                *least = (*least).max(times);
            }
            Fact::AtMost { class, end, times } => self.caps.push((class, end, times)),
            Fact::ArrowWithin { narrow, wide } => self.arrows[narrow].insert(wide),
            Fact::ArrowsApart(a, b) => {
                self.arrows_apart[a].insert(b);
                self.arrows_apart[b].insert(a);
            }
        }
    }

    /// Adds what the direct links imply: first among arrows, then at the ends,
    /// and then among classes, where an end that must be had brings its classes.
    fn follow(&mut self) {
        close(&mut self.arrows);

        let direct = self.end_classes;
        for (end, classes) in self.end_classes.iter_mut().enumerate() {
            for wider in self.arrows[end / 2] {
                classes.add(direct[end_of(wider, end)]);
            }
        }
        for (class, least) in self.least.iter_mut().enumerate() {
            let direct = *least;
            for (end, &times) in direct.iter().enumerate() {
                if times > 0 {
                    for wider in self.arrows[end / 2] {
                        let least = &mut least[end_of(wider, end)];
                        *least = (*least).max(times);
                    }
                    self.classes[class].add(self.end_classes[end]);
                }
            }
        }
        close(&mut self.classes);
    }

    fn class_profile(&self, class: usize) -> Profile {
        let mut profile = Profile {
            classes: self.classes[class],
            least: [0; ENDS],
        };
        for class in profile.classes {
            raise(&mut profile.least, &self.least[class]);
        }
        profile
    }

    fn end_profile(&self, end: usize, times: u8) -> Profile {
        let mut profile = Profile {
            classes: Set::default(),
            least: [0; ENDS],
        };
        for class in self.end_classes[end] {
            profile.classes.add(self.classes[class]);
        }
        for wider in self.arrows[end / 2] {
            profile.least[end_of(wider, end)] = times;
        }
        for class in profile.classes {
            raise(&mut profile.least, &self.least[class]);
        }
        profile
    }

    fn classes_apart(&self, one: &Profile, other: &Profile) -> bool {
        let mut classes = one.classes;
        classes.any(|class| self.apart[class].meets(other.classes))
    }

    /// Whether a class of the one is capped below what the other has.
    fn capped(&self, one: &Profile, other: &Profile) -> bool {
        self.caps
            .iter()
            .any(|&(class, end, times)| one.classes.contains(class) && other.least[end] > times)
    }

    fn contradictory(&self, profile: &Profile) -> bool {
        self.classes_apart(profile, profile) || self.capped(profile, profile)
    }

    fn pairs_clash(&self, one: usize, other: usize) -> bool {
        let mut wider = self.arrows[one];
        wider.any(|arrow| self.arrows_apart[arrow].meets(self.arrows[other]))
    }

    /// An arrow is empty if its own pairs contradict a row, or if the thing at
    /// either end of a pair is impossible; a thing is impossible if it
    /// contradicts a row or needs an arrow that is empty. Rounds are made until
    /// one finds nothing new, so that no arrow is called empty without a reason.
    fn empty_arrows(&self, arrows: usize) -> Set {
        let mut empty = Set::default();
        let mut needs = Vec::new();
        for arrow in 0..arrows {
            let ends = [2 * arrow, 2 * arrow + 1].map(|end| self.end_profile(end, 1));
            if self.pairs_clash(arrow, arrow) || ends.iter().any(|end| self.contradictory(end)) {
                empty.insert(arrow);
            }
            let mut needed = ends[0].arrows();
            needed.add(ends[1].arrows());
            needs.push(needed);
        }
        loop {
            let before = empty;
            for (arrow, needed) in needs.iter().enumerate() {
                if needed.meets(empty) {
                    empty.insert(arrow);
                }
            }
            if empty == before {
                return empty;
            }
        }
    }
}

/// The names that no data can fill.
#[derive(Debug, PartialEq, Eq)]
pub struct Empty {
    pub classes: Set,
    pub arrows: Set,
}

/// A schema with all that follows from it about things and about pairs.
pub struct Judged {
    links: Links,
    empty_arrows: Set,
}

impl Judged {
    pub fn of(schema: &Schema) -> Judged {
        let links = Links::of(&schema.facts);
        let empty_arrows = links.empty_arrows(schema.arrows);
        Judged {
            links,
            empty_arrows,
        }
    }

    /// A thing in the class.
    pub fn in_class(&self, class: usize) -> Profile {
        self.links.class_profile(class)
    }

    /// A thing that has the end so many times.
    pub fn at_end(&self, end: usize, times: u8) -> Profile {
        self.links.end_profile(end, times)
    }

    pub fn impossible(&self, profile: &Profile) -> bool {
        self.links.contradictory(profile) || profile.arrows().meets(self.empty_arrows)
    }

    /// Whether nothing is as both profiles say.
    pub fn never_both(&self, one: &Profile, other: &Profile) -> bool {
        self.impossible(one)
            || self.impossible(other)
            || self.links.classes_apart(one, other)
            || self.links.capped(one, other)
            || self.links.capped(other, one)
    }

    pub fn arrow_empty(&self, arrow: usize) -> bool {
        self.empty_arrows.contains(arrow)
    }

    pub fn arrow_within(&self, narrow: usize, wide: usize) -> bool {
        self.links.arrows[narrow].contains(wide)
    }

    pub fn pairs_clash(&self, one: usize, other: usize) -> bool {
        self.links.pairs_clash(one, other)
    }
}

pub fn forced_empty(schema: &Schema) -> Empty {
    let judged = Judged::of(schema);
    let mut classes = Set::default();
    for class in 0..schema.classes {
        if judged.impossible(&judged.in_class(class)) {
            classes.insert(class);
        }
    }
    Empty {
        classes,
        arrows: judged.empty_arrows,
    }
}

#[cfg(test)]
mod tests {
    use super::*;
    use crate::schema::drawing;

    /// The empty classes and arrows of a drawing.
    fn empty(words: &[&str]) -> (Vec<usize>, Vec<usize>) {
        let empty = forced_empty(&drawing::checked(words).expect("a drawing"));
        (empty.classes.collect(), empty.arrows.collect())
    }

    #[test]
    fn no_clash_no_emptiness() {
        assert_eq!(empty(&[]), (vec![], vec![]));
        assert_eq!(empty(&["S 0 1", "S 1 2"]), (vec![], vec![]));
        assert_eq!(empty(&["P 0 1", "K 0 0 1"]), (vec![], vec![]));
        assert_eq!(empty(&["F 0 0 2", "P 0 1"]), (vec![], vec![]));
        assert_eq!(empty(&["D 0 0", "D 2 1", "X 0 1"]), (vec![], vec![]));
    }

    #[test]
    fn apart_from_itself() {
        assert_eq!(empty(&["X 0 0"]), (vec![0], vec![]));
        assert_eq!(empty(&["Q 1 1"]), (vec![], vec![1]));
    }

    #[test]
    fn counts_clash_only_when_the_cap_is_lower() {
        assert_eq!(empty(&["F 0 0 2", "K 0 0 1"]), (vec![0], vec![]));
        assert_eq!(empty(&["F 0 0 2", "K 0 0 2"]), (vec![], vec![]));
    }

    #[test]
    fn emptiness_goes_from_head_to_tail() {
        let rows = ["D 1 1", "D 1 2", "X 1 2", "F 0 0 1"];
        assert_eq!(empty(&rows), (vec![0], vec![0]));
    }

    #[test]
    fn arrow_within_one_that_it_is_apart_from() {
        assert_eq!(empty(&["P 0 1", "Q 0 1"]), (vec![], vec![0]));
    }

    #[test]
    fn endless_data_counts() {
        assert_eq!(empty(&["F 0 0 2", "D 1 0", "K 0 1 1"]), (vec![], vec![]));
    }
}
