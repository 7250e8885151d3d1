//! What belongs to one party alone: its slots, its trail and what it is running.

use crate::kinds::Kind;
use crate::make::{Make, Sweep};
use crate::refusal::Refusal;
use crate::walk::Walk;
use crate::words::{NodeNumber, PartyNumber};

pub const SLOTS: usize = 8;

pub struct Party<K: Kind> {
    pub slots: [NodeNumber; SLOTS],
    pub trail: Trail,
    pub running: Option<Running<K>>,
}

/// A path from the node of a slot down to kids. No node reaches itself, so it fits.
pub struct Trail {
    path: [NodeNumber; 255],
    length: usize,
    slot: usize,
}

/// A running call with what it remembers. Slots and kids count from 0 here.
pub enum Running<K: Kind> {
    Read(Read<K>),
    Down { kid: usize },
    Keep { slot: usize },
    Drop { slot: usize },
    Hand { slot: usize, receiver: PartyNumber },
    Fetch { slot: usize, node: NodeNumber },
    Make(Make<K>),
    Sweep(Sweep),
    Walk(Walk<K>),
}

pub struct Read<K: Kind> {
    pub steps: usize,
    pub data: K::Data,
    pub kids: [NodeNumber; 3],
}

impl Trail {
    fn new() -> Trail {
        Trail {
            path: [0; 255],
            length: 0,
            slot: 0,
        }
    }

    pub fn last(&self) -> Option<NodeNumber> {
        self.path[..self.length].last().copied()
    }

    pub fn lengthen(&mut self, node: NodeNumber) {
        self.path[self.length] = node;
        self.length += 1;
    }

    pub fn shorten(&mut self) {
        self.length -= 1;
    }

    fn enter(&mut self, slot: usize, node: NodeNumber) {
        self.slot = slot;
        self.length = 0;
        self.lengthen(node);
    }

    fn stands(&self) -> bool {
        self.length > 0
    }

    fn entered_at(&self, slot: usize) -> bool {
        self.stands() && self.slot == slot
    }
}

impl<K: Kind> Party<K> {
    pub fn new() -> Party<K> {
        Party {
            slots: [0; SLOTS],
            trail: Trail::new(),
            running: None,
        }
    }

    pub fn is_walking(&self) -> bool {
        matches!(self.running, Some(Running::Walk(_)))
    }

    pub fn enter(&mut self, slot: i32) -> Result<(), Refusal> {
        let slot = slot_of(slot)?;
        self.no_trail_stands()?;
        self.trail.enter(slot, self.filled(slot)?);
        Ok(())
    }

    pub fn up(&mut self) -> Result<(), Refusal> {
        self.trail_stands()?;
        self.trail.shorten();
        Ok(())
    }

    pub fn leave(&mut self) -> Result<(), Refusal> {
        self.trail_stands()?;
        self.trail.length = 0;
        Ok(())
    }

    pub fn begin_read(&self) -> Result<Running<K>, Refusal> {
        self.trail_stands()?;
        Ok(Running::Read(Read {
            steps: 0,
            data: K::Data::default(),
            kids: [0; 3],
        }))
    }

    pub fn begin_down(&self, kid: i32) -> Result<Running<K>, Refusal> {
        let kid = numbered(kid, 3).ok_or(Refusal::NoSuchSlot)?;
        self.trail_stands()?;
        Ok(Running::Down { kid })
    }

    pub fn begin_keep(&self, slot: i32) -> Result<Running<K>, Refusal> {
        let slot = slot_of(slot)?;
        self.trail_stands()?;
        self.empty(slot)?;
        Ok(Running::Keep { slot })
    }

    pub fn begin_drop(&self, slot: i32) -> Result<Running<K>, Refusal> {
        let slot = self.slot_to_empty(slot)?;
        Ok(Running::Drop { slot })
    }

    pub fn begin_hand(&self, slot: i32, receiver: PartyNumber) -> Result<Running<K>, Refusal> {
        let slot = self.slot_to_empty(slot)?;
        Ok(Running::Hand { slot, receiver })
    }

    pub fn begin_fetch(&self, slot: i32) -> Result<Running<K>, Refusal> {
        let slot = slot_of(slot)?;
        self.empty(slot)?;
        Ok(Running::Fetch { slot, node: 0 })
    }

    pub fn begin_make(
        &self,
        slot: i32,
        data: (i32, i32),
        kid_slots: [i32; 3],
    ) -> Result<Running<K>, Refusal> {
        let slot = slot_of(slot)?;
        let kid_slots = [
            kid_slot_of(kid_slots[0])?,
            kid_slot_of(kid_slots[1])?,
            kid_slot_of(kid_slots[2])?,
        ];
        let kids = self.kids(kid_slots)?;
        self.empty(slot)?;
        let data = K::data(data.0, data.1, kids.map(|kid| kid != 0));
        let data = data.ok_or(Refusal::DataDoesNotFit)?;
        Ok(Running::Make(Make::new(slot, data, kids)))
    }

    /// What a walk is refused for beside its situation, which `situation` looks at in between.
    pub fn begin_walk<S>(
        &mut self,
        slot: i32,
        situation: impl FnOnce() -> Result<S, Refusal>,
    ) -> Result<S, Refusal> {
        let slot = slot_of(slot)?;
        let situation = situation()?;
        self.no_trail_stands()?;
        self.trail.enter(slot, self.filled(slot)?);
        Ok(situation)
    }

    fn kids(&self, slots: [Option<usize>; 3]) -> Result<[NodeNumber; 3], Refusal> {
        let kid = |slot: Option<usize>| slot.map_or(Ok(0), |slot| self.filled(slot));
        Ok([kid(slots[0])?, kid(slots[1])?, kid(slots[2])?])
    }

    fn slot_to_empty(&self, slot: i32) -> Result<usize, Refusal> {
        let slot = slot_of(slot)?;
        if self.trail.entered_at(slot) {
            return Err(Refusal::TrailStands);
        }
        self.filled(slot)?;
        Ok(slot)
    }

    fn filled(&self, slot: usize) -> Result<NodeNumber, Refusal> {
        match self.slots[slot] {
            0 => Err(Refusal::SlotEmpty),
            node => Ok(node),
        }
    }

    fn empty(&self, slot: usize) -> Result<(), Refusal> {
        match self.slots[slot] {
            0 => Ok(()),
            _ => Err(Refusal::SlotFilled),
        }
    }

    fn trail_stands(&self) -> Result<(), Refusal> {
        if self.trail.stands() {
            Ok(())
        } else {
            Err(Refusal::NoTrail)
        }
    }

    fn no_trail_stands(&self) -> Result<(), Refusal> {
        if self.trail.stands() {
            Err(Refusal::TrailStands)
        } else {
            Ok(())
        }
    }
}

/// The index of the thing with this number, of so many numbered from 1.
pub fn numbered(number: i32, of: usize) -> Option<usize> {
    let index = usize::try_from(number).ok()?.checked_sub(1)?;
    (index < of).then_some(index)
}

fn slot_of(number: i32) -> Result<usize, Refusal> {
    numbered(number, SLOTS).ok_or(Refusal::NoSuchSlot)
}

fn kid_slot_of(number: i32) -> Result<Option<usize>, Refusal> {
    if number == 0 {
        Ok(None)
    } else {
        slot_of(number).map(Some)
    }
}
