//! The walk over a term, a step at a time.

use crate::kinds::{Kind, Situation};
use crate::party::Trail;
use crate::words::{NodeNumber, Words};

/// A walk's marks and worths, entry n - 1 for node n; its caller's.
pub struct Notes<K: Kind> {
    pub marks: Vec<bool>,
    pub worths: Vec<K::Worth>,
}

impl<K: Kind> Notes<K> {
    pub fn new(nodes: usize) -> Notes<K> {
        Notes {
            marks: vec![false; nodes],
            worths: vec![K::Worth::default(); nodes],
        }
    }

    fn is_marked(&self, node: NodeNumber) -> bool {
        self.marks[usize::from(node) - 1]
    }

    fn worth(&self, node: NodeNumber) -> K::Worth {
        match node {
            0 => K::Worth::default(),
            _ => self.worths[usize::from(node) - 1],
        }
    }

    fn set_down(&mut self, node: NodeNumber, worth: K::Worth) {
        self.marks[usize::from(node) - 1] = true;
        self.worths[usize::from(node) - 1] = worth;
    }
}

pub struct Walk<K: Kind> {
    situation: Situation,
    data: K::Data,
    kids: [NodeNumber; 3],
    place: WalkPlace,
}

#[derive(Clone, Copy)]
enum WalkPlace {
    ReadData,
    ReadKid(usize),
    GoDown(usize),
}

impl<K: Kind> Walk<K> {
    pub fn new(situation: Situation) -> Walk<K> {
        Walk {
            situation,
            data: K::Data::default(),
            kids: [0; 3],
            place: WalkPlace::ReadData,
        }
    }

    /// Answers the worth and the number of different nodes with the last step.
    pub fn step(
        &mut self,
        trail: &mut Trail,
        words: &mut Words,
        data: &[K::Data],
        notes: &mut Notes<K>,
    ) -> Option<(K::Worth, usize)> {
        let node = trail.last()?;
        match self.place {
            WalkPlace::ReadData => {
                self.data = data[usize::from(node) - 1];
                self.place = WalkPlace::ReadKid(0);
            }
            WalkPlace::ReadKid(place) => {
                self.kids[place] = words.node(node).kids[place];
                if place == 2 {
                    return self.settle(node, trail, words.nodes(), notes);
                }
                self.place = WalkPlace::ReadKid(place + 1);
            }
            WalkPlace::GoDown(place) => {
                trail.lengthen(words.node(node).kids[place]);
                self.place = WalkPlace::ReadData;
            }
        }
        None
    }

    /// With the last reading: where to go down next, or what the node is worth.
    fn settle(
        &mut self,
        node: NodeNumber,
        trail: &mut Trail,
        nodes: usize,
        notes: &mut Notes<K>,
    ) -> Option<(K::Worth, usize)> {
        let unmarked = self
            .kids
            .iter()
            .position(|&kid| kid != 0 && !notes.is_marked(kid));
        if let Some(place) = unmarked {
            self.place = WalkPlace::GoDown(place);
            return None;
        }
        let worth = K::worth(
            self.data,
            self.situation,
            self.kids.map(|kid| notes.worth(kid)),
        );
        notes.set_down(node, worth);
        trail.shorten();
        self.place = WalkPlace::ReadData;
        let size = || notes.marks[..nodes].iter().filter(|&&mark| mark).count();
        trail.last().is_none().then(|| (worth, size()))
    }
}
