//! Make and Sweep, a step at a time.

use crate::kinds::Kind;
use crate::orders::Stride;
use crate::words::{NodeNumber, PartyNumber, Tray, Words};

pub struct Orders {
    pub nodes: Stride,
    pub parties: Stride,
}

/// Looking for a free node and making it one's own, which Make and Sweep have in common.
#[derive(Clone, Copy)]
pub enum Hunt {
    LookForNode,
    LockNode(NodeNumber),
    Recheck(NodeNumber),
    UnlockAndGoBack(NodeNumber),
    ReadKid(NodeNumber, u8),
    ClearKid(NodeNumber, u8, NodeNumber),
    UncountKid(NodeNumber, u8, NodeNumber),
    Claim(NodeNumber),
    Unlock(NodeNumber),
}

enum Hunted {
    GoesOn(Hunt),
    NothingFound,
    Found(NodeNumber),
}

impl Hunt {
    #[inline(always)] // takes a fifth off the time of a Make that finds nothing
    fn step(self, me: PartyNumber, words: &mut Words, orders: &mut Orders) -> Hunted {
        use Hunt::*;
        let next = match self {
            LookForNode => {
                let node = orders.nodes.pick(usize::from(me) - 1);
                if words.node(node).count != 0 {
                    return Hunted::NothingFound;
                }
                LockNode(node)
            }
            LockNode(node) => {
                let lock = &mut words.node(node).lock;
                if *lock != 0 {
                    return Hunted::NothingFound;
                }
                *lock = me;
                Recheck(node)
            }
            Recheck(node) if words.node(node).count == 0 => ReadKid(node, 0),
            Recheck(node) => UnlockAndGoBack(node),
            UnlockAndGoBack(node) => {
                words.node(node).lock = 0;
                return Hunted::NothingFound;
            }
            ReadKid(node, place) => match words.node(node).kids[usize::from(place)] {
                0 => after_kid(node, place),
                kid => ClearKid(node, place, kid),
            },
            ClearKid(node, place, kid) => {
                words.node(node).kids[usize::from(place)] = 0;
                UncountKid(node, place, kid)
            }
            UncountKid(node, place, kid) => {
                words.node(kid).count -= 1;
                after_kid(node, place)
            }
            Claim(node) => {
                words.node(node).count = 1;
                Unlock(node)
            }
            Unlock(node) => {
                words.node(node).lock = 0;
                return Hunted::Found(node);
            }
        };
        Hunted::GoesOn(next)
    }
}

fn after_kid(node: NodeNumber, place: u8) -> Hunt {
    if place < 2 {
        Hunt::ReadKid(node, place + 1)
    } else {
        Hunt::Claim(node)
    }
}

pub struct Make<K: Kind> {
    pub slot: usize,
    data: K::Data,
    kids: [NodeNumber; 3],
    place: MakePlace,
}

#[derive(Clone, Copy)]
enum MakePlace {
    OpenTray,
    ReadTray,
    Hunt(Hunt),
    Offer(NodeNumber),
    KeepForOneself(NodeNumber),
    GiveBack(NodeNumber),
    CloseTray(NodeNumber),
    WriteData(NodeNumber),
    CountKid(NodeNumber, u8),
    LinkKid(NodeNumber, u8),
}

impl<K: Kind> Make<K> {
    pub fn new(slot: usize, data: K::Data, kids: [NodeNumber; 3]) -> Make<K> {
        Make {
            slot,
            data,
            kids,
            place: MakePlace::OpenTray,
        }
    }

    /// Answers the node with the last step.
    pub fn step(
        &mut self,
        me: PartyNumber,
        words: &mut Words,
        orders: &mut Orders,
        data: &mut [K::Data],
    ) -> Option<NodeNumber> {
        use MakePlace::*;
        self.place = match self.place {
            OpenTray => {
                *words.tray(me) = Tray::Open;
                ReadTray
            }
            ReadTray => match *words.tray(me) {
                Tray::Holding(node) => CloseTray(node),
                _ => Hunt(self::Hunt::LookForNode),
            },
            Hunt(hunt) => match hunt.step(me, words, orders) {
                Hunted::GoesOn(hunt) => Hunt(hunt),
                Hunted::NothingFound => ReadTray,
                Hunted::Found(node) => Offer(node),
            },
            Offer(node) => match orders.parties.pick(usize::from(me) - 1) {
                receiver if receiver == me => keep_for_oneself(node, me, words),
                receiver if words.put(node, receiver) => ReadTray,
                _ => KeepForOneself(node),
            },
            KeepForOneself(node) => keep_for_oneself(node, me, words),
            GiveBack(node) => {
                words.node(node).count = 0;
                ReadTray
            }
            CloseTray(node) => {
                *words.tray(me) = Tray::Closed;
                WriteData(node)
            }
            WriteData(node) => {
                data[usize::from(node) - 1] = self.data;
                return self.go_to_kid(node, 0);
            }
            CountKid(node, place) => {
                words.node(self.kids[usize::from(place)]).count += 1;
                LinkKid(node, place)
            }
            LinkKid(node, place) => {
                words.node(node).kids[usize::from(place)] = self.kids[usize::from(place)];
                return self.go_to_kid(node, place + 1);
            }
        };
        None
    }

    /// Goes to the next kid that is given, or answers the node.
    fn go_to_kid(&mut self, node: NodeNumber, from: u8) -> Option<NodeNumber> {
        match (from..3).find(|&place| self.kids[usize::from(place)] != 0) {
            Some(place) => {
                self.place = MakePlace::CountKid(node, place);
                None
            }
            None => Some(node),
        }
    }
}

fn keep_for_oneself(node: NodeNumber, me: PartyNumber, words: &mut Words) -> MakePlace {
    if words.put(node, me) {
        MakePlace::CloseTray(node)
    } else {
        MakePlace::GiveBack(node)
    }
}

pub enum Sweep {
    Hunt(Hunt),
    Offer(NodeNumber),
    GiveBack(NodeNumber),
}

impl Sweep {
    pub fn new() -> Sweep {
        Sweep::Hunt(Hunt::LookForNode)
    }

    /// Answers the node and its receiver with the last step, 0 where there is none.
    pub fn step(
        &mut self,
        me: PartyNumber,
        words: &mut Words,
        orders: &mut Orders,
    ) -> Option<(NodeNumber, PartyNumber)> {
        *self = match *self {
            Sweep::Hunt(hunt) => match hunt.step(me, words, orders) {
                Hunted::GoesOn(hunt) => Sweep::Hunt(hunt),
                Hunted::NothingFound => return Some((0, 0)),
                Hunted::Found(node) => Sweep::Offer(node),
            },
            Sweep::Offer(node) => match orders.parties.pick(usize::from(me) - 1) {
                receiver if receiver == me => return Some(give_back(node, words)),
                receiver if words.put(node, receiver) => return Some((node, receiver)),
                _ => Sweep::GiveBack(node),
            },
            Sweep::GiveBack(node) => return Some(give_back(node, words)),
        };
        None
    }
}

fn give_back(node: NodeNumber, words: &mut Words) -> (NodeNumber, PartyNumber) {
    words.node(node).count = 0;
    (node, 0)
}
