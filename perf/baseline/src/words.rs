//! The words that the parties share.

/// A node's number; 0 is no node.
pub type NodeNumber = u8;
/// A party's number, 1 to 15; 0 is no party.
pub type PartyNumber = u8;

#[derive(Clone, Copy, Default)]
pub struct Node {
    pub count: u32,
    pub lock: PartyNumber,
    pub kids: [NodeNumber; 3],
}

#[derive(Clone, Copy, Default, PartialEq, Eq)]
pub enum Tray {
    #[default]
    Closed,
    Open,
    Holding(NodeNumber),
}

pub struct Words {
    nodes: Vec<Node>,
    inboxes: Vec<NodeNumber>,
    trays: Vec<Tray>,
}

impl Words {
    pub fn new(nodes: u8, parties: u8) -> Words {
        Words {
            nodes: vec![Node::default(); nodes.into()],
            inboxes: vec![0; parties.into()],
            trays: vec![Tray::default(); parties.into()],
        }
    }

    pub fn nodes(&self) -> usize {
        self.nodes.len()
    }

    pub fn node(&mut self, number: NodeNumber) -> &mut Node {
        &mut self.nodes[usize::from(number) - 1]
    }

    pub fn inbox(&mut self, party: PartyNumber) -> &mut NodeNumber {
        &mut self.inboxes[usize::from(party) - 1]
    }

    pub fn tray(&mut self, party: PartyNumber) -> &mut Tray {
        &mut self.trays[usize::from(party) - 1]
    }

    /// Puts a node into a tray if that is open.
    pub fn put(&mut self, node: NodeNumber, party: PartyNumber) -> bool {
        let tray = self.tray(party);
        let open = *tray == Tray::Open;
        if open {
            *tray = Tray::Holding(node);
        }
        open
    }
}
