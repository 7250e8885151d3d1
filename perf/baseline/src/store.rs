//! The store: its parties' Begins and Turns.

use std::mem;

use crate::kinds::{Kind, Situation};
use crate::make::{Orders, Sweep};
use crate::orders::{Stride, MOST_PARTIES};
use crate::party::{numbered, Party, Read, Running, Trail};
use crate::refusal::Refusal;
use crate::walk::{Notes, Walk};
use crate::words::{NodeNumber, PartyNumber, Words};

pub struct Store<K: Kind> {
    words: Words,
    parties: Vec<Party<K>>,
    orders: Orders,
}

/// A call with its arguments, as a caller gives them: any numbers.
pub enum Call {
    Make {
        slot: i32,
        data: (i32, i32),
        kids: [i32; 3],
    },
    Read,
    Down {
        kid: i32,
    },
    Keep {
        slot: i32,
    },
    Drop {
        slot: i32,
    },
    Hand {
        slot: i32,
        receiver: i32,
    },
    Fetch {
        slot: i32,
    },
    Enter {
        slot: i32,
    },
    Up,
    Leave,
    Sweep,
}

pub struct WalkCall {
    pub slot: i32,
    pub range: i32,
    pub gear: i32,
    pub temperature: i32,
}

pub enum Answer<K: Kind> {
    Done,
    AtNode(NodeNumber),
    Contents {
        node: NodeNumber,
        data: K::Data,
    },
    Swept {
        node: NodeNumber,
        receiver: PartyNumber,
    },
    WorthIs {
        worth: K::Worth,
        size: usize,
    },
}

pub enum Progress<K: Kind> {
    Begun,
    StillRunning,
    Ended(Answer<K>),
}

pub type Outcome<K> = Result<Progress<K>, Refusal>;

impl<K: Kind> Store<K> {
    pub fn new(
        nodes: i32,
        parties: i32,
        node_stride: i32,
        party_stride: i32,
    ) -> Result<Store<K>, Refusal> {
        let nodes = numbered(nodes, 255).ok_or(Refusal::OutsideLimits)? as u8 + 1;
        let parties = numbered(parties, MOST_PARTIES).ok_or(Refusal::OutsideLimits)? as u8 + 1;
        let orders = Orders {
            nodes: Stride::new(nodes, node_stride)?,
            parties: Stride::new(parties, party_stride)?,
        };
        Ok(Store {
            words: Words::new(nodes, parties),
            parties: (0..parties).map(|_| Party::new()).collect(),
            orders,
        })
    }

    pub fn nodes(&self) -> usize {
        self.words.nodes()
    }

    pub fn is_walking(&self, party: i32) -> bool {
        self.index(party)
            .is_ok_and(|index| self.parties[index].is_walking())
    }

    pub fn begin(&mut self, party: i32, call: Call, data: &[K::Data]) -> Outcome<K> {
        let index = self.index(party)?;
        let receiver = match call {
            Call::Hand { receiver, .. } => self.index(receiver)? as PartyNumber + 1,
            _ => 0,
        };
        self.long_enough(data.len())?;
        let party = self.idle(index)?;
        let running = match call {
            Call::Enter { slot } => return party.enter(slot).map(done),
            Call::Up => return party.up().map(done),
            Call::Leave => return party.leave().map(done),
            Call::Make { slot, data, kids } => party.begin_make(slot, data, kids)?,
            Call::Read => party.begin_read()?,
            Call::Down { kid } => party.begin_down(kid)?,
            Call::Keep { slot } => party.begin_keep(slot)?,
            Call::Drop { slot } => party.begin_drop(slot)?,
            Call::Hand { slot, .. } => party.begin_hand(slot, receiver)?,
            Call::Fetch { slot } => party.begin_fetch(slot)?,
            Call::Sweep => Running::Sweep(Sweep::new()),
        };
        party.running = Some(running);
        Ok(Progress::Begun)
    }

    pub fn begin_walk(
        &mut self,
        party: i32,
        call: WalkCall,
        data: &[K::Data],
        notes: &mut Notes<K>,
    ) -> Outcome<K> {
        let index = self.index(party)?;
        self.all_long_enough(data, notes)?;
        let nodes = self.nodes();
        let party = self.idle(index)?;
        let situation = party.begin_walk(call.slot, || {
            Situation::new(call.range, call.gear, call.temperature).ok_or(Refusal::BadSituation)
        })?;
        notes.marks[..nodes].fill(false);
        party.running = Some(Running::Walk(Walk::new(situation)));
        Ok(Progress::Begun)
    }

    pub fn turn(&mut self, party: i32, data: &mut [K::Data]) -> Outcome<K> {
        let index = self.index(party)?;
        self.long_enough(data.len())?;
        let party = &mut self.parties[index];
        let outcome = step(index, party, &mut self.words, &mut self.orders, data);
        if !matches!(outcome, Ok(Progress::StillRunning)) && !party.is_walking() {
            party.running = None;
        }
        outcome
    }

    pub fn turn_walk(&mut self, party: i32, data: &[K::Data], notes: &mut Notes<K>) -> Outcome<K> {
        let index = self.index(party)?;
        self.all_long_enough(data, notes)?;
        let Party { trail, running, .. } = &mut self.parties[index];
        let Some(Running::Walk(walk)) = running else {
            return Err(Refusal::NothingToTurn);
        };
        let Some((worth, size)) = walk.step(trail, &mut self.words, data, notes) else {
            return Ok(Progress::StillRunning);
        };
        *running = None;
        Ok(Progress::Ended(Answer::WorthIs { worth, size }))
    }

    fn index(&self, party: i32) -> Result<usize, Refusal> {
        numbered(party, self.parties.len()).ok_or(Refusal::NoSuchParty)
    }

    fn long_enough(&self, length: usize) -> Result<(), Refusal> {
        if length < self.nodes() {
            Err(Refusal::ShortList)
        } else {
            Ok(())
        }
    }

    fn all_long_enough(&self, data: &[K::Data], notes: &Notes<K>) -> Result<(), Refusal> {
        self.long_enough(data.len().min(notes.marks.len()).min(notes.worths.len()))
    }

    fn idle(&mut self, index: usize) -> Result<&mut Party<K>, Refusal> {
        let party = &mut self.parties[index];
        if party.running.is_some() {
            Err(Refusal::Busy)
        } else {
            Ok(party)
        }
    }
}

fn done<K: Kind>(_: ()) -> Progress<K> {
    Progress::Ended(Answer::Done)
}

/// One step of the call that a party is running.
fn step<K: Kind>(
    index: usize,
    party: &mut Party<K>,
    words: &mut Words,
    orders: &mut Orders,
    data: &mut [K::Data],
) -> Outcome<K> {
    let me = index as PartyNumber + 1;
    let Party {
        slots,
        trail,
        running,
    } = party;
    let running = running.as_mut().ok_or(Refusal::NothingToTurn)?;
    let last = trail.last().unwrap_or(0);
    let node = match running {
        Running::Make(make) => {
            let Some(node) = make.step(me, words, orders, data) else {
                return Ok(Progress::StillRunning);
            };
            slots[make.slot] = node;
            node
        }
        Running::Sweep(sweep) => return Ok(swept(sweep.step(me, words, orders))),
        Running::Read(read) => return Ok(read.step(last, words, data)),
        Running::Down { kid } => down(last, *kid, trail, words)?,
        Running::Keep { slot } => {
            words.node(last).count += 1;
            slots[*slot] = last;
            last
        }
        Running::Drop { slot } => {
            let node = mem::take(&mut slots[*slot]);
            words.node(node).count -= 1;
            node
        }
        Running::Hand { slot, receiver } => hand(&mut slots[*slot], words.inbox(*receiver))?,
        Running::Fetch { node, .. } if *node == 0 => {
            *node = in_inbox(*words.inbox(me))?;
            return Ok(Progress::StillRunning);
        }
        Running::Fetch { slot, node } => {
            *words.inbox(me) = 0;
            slots[*slot] = *node;
            *node
        }
        Running::Walk(_) => return Err(Refusal::Busy),
    };
    Ok(Progress::Ended(Answer::AtNode(node)))
}

fn swept<K: Kind>(ended: Option<(NodeNumber, PartyNumber)>) -> Progress<K> {
    match ended {
        Some((node, receiver)) => Progress::Ended(Answer::Swept { node, receiver }),
        None => Progress::StillRunning,
    }
}

fn down(
    node: NodeNumber,
    kid: usize,
    trail: &mut Trail,
    words: &mut Words,
) -> Result<NodeNumber, Refusal> {
    match words.node(node).kids[kid] {
        0 => Err(Refusal::NoKid),
        kid => {
            trail.lengthen(kid);
            Ok(kid)
        }
    }
}

fn hand(slot: &mut NodeNumber, inbox: &mut NodeNumber) -> Result<NodeNumber, Refusal> {
    if *inbox != 0 {
        return Err(Refusal::InboxFull);
    }
    *inbox = mem::take(slot);
    Ok(*inbox)
}

fn in_inbox(node: NodeNumber) -> Result<NodeNumber, Refusal> {
    if node == 0 {
        Err(Refusal::InboxEmpty)
    } else {
        Ok(node)
    }
}

impl<K: Kind> Read<K> {
    /// Data first, then each kid.
    fn step(&mut self, node: NodeNumber, words: &mut Words, data: &[K::Data]) -> Progress<K> {
        match self.steps {
            0 => self.data = data[usize::from(node) - 1],
            step => self.kids[step - 1] = words.node(node).kids[step - 1],
        }
        self.steps += 1;
        if self.steps <= 3 {
            return Progress::StillRunning;
        }
        Progress::Ended(Answer::Contents {
            node,
            data: self.data,
        })
    }
}
