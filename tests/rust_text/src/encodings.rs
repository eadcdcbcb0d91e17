//! The traits that the text implements, and the database beneath it: a totalizer of our own, after document 01.
use crate::types::{Clause, Lit};
use crate::OutOfMemory;

pub mod atomics {
    use crate::types::{Clause, Lit};

    pub fn lit_impl_lit(from: Lit, to: Lit) -> Clause {
        vec![!from, to]
    }

    pub fn cube_impl_lit(from: &[Lit], to: Lit) -> Clause {
        from.iter().map(|&lit| !lit).chain([to]).collect()
    }
}

#[derive(Debug, PartialEq, Eq)]
pub enum EnforceError {
    NotEncoded,
}

pub trait CollectClauses {
    fn n_clauses(&self) -> usize;
    fn extend_clauses<T: IntoIterator<Item = Clause>>(&mut self, clauses: T) -> Result<(), OutOfMemory>;
    fn add_clause(&mut self, clause: Clause) -> Result<(), OutOfMemory> {
        self.extend_clauses([clause])
    }
}

pub trait EncodeStats {
    fn n_clauses(&self) -> usize;
    fn n_vars(&self) -> u32;
}

pub trait IterWeightedInputs {
    type Iter<'a>: Iterator<Item = (Lit, usize)>
    where
        Self: 'a;
    fn iter(&self) -> Self::Iter<'_>;
}

pub mod nodedb {
    use std::num::{NonZeroU8, NonZeroUsize};

    pub trait NodeById {}
    pub trait NodeLike {}

    #[derive(Clone, Copy, PartialEq, Eq)]
    pub struct NodeId(pub usize);

    impl std::fmt::Debug for NodeId {
        fn fmt(&self, f: &mut std::fmt::Formatter<'_>) -> std::fmt::Result {
            write!(f, "{}", self.0)
        }
    }

    /// A link to a node: value v of the node counts as (v - offset) / divisor * multiplier.
    #[derive(Clone, Copy, Debug, PartialEq, Eq)]
    pub struct NodeCon {
        pub id: NodeId,
        pub offset: usize,
        pub divisor: NonZeroU8,
        pub multiplier: NonZeroUsize,
        pub len_limit: Option<NonZeroUsize>,
    }

    impl NodeCon {
        pub fn full(id: NodeId) -> Self {
            Self::weighted(id, 1)
        }

        pub fn weighted(id: NodeId, weight: usize) -> Self {
            let (divisor, multiplier) = (NonZeroU8::new(1).unwrap(), NonZeroUsize::new(weight).unwrap());
            NodeCon { id, offset: 0, divisor, multiplier, len_limit: None }
        }

        pub fn offset(&self) -> usize {
            self.offset
        }

        pub fn divisor(&self) -> usize {
            self.divisor.get().into()
        }

        pub fn multiplier(&self) -> usize {
            self.multiplier.get()
        }

        pub fn map(&self, value: usize) -> usize {
            value.saturating_sub(self.offset) / self.divisor() * self.multiplier()
        }

        pub fn rev_map(&self, value: usize) -> usize {
            value / self.multiplier() * self.divisor() + self.offset
        }

        pub fn rev_map_round_up(&self, value: usize) -> usize {
            value.div_ceil(self.multiplier()) * self.divisor() + self.offset
        }

        pub fn is_possible(&self, value: usize) -> bool {
            value % self.multiplier() == 0
        }
    }
}

pub mod totdb {
    use super::nodedb::{NodeCon, NodeId};
    use super::CollectClauses;
    use crate::instances::ManageVars;
    use crate::types::Lit;
    use crate::OutOfMemory;
    use std::ops::{Bound, Index, IndexMut, RangeBounds};

    #[derive(Clone, Copy, Debug, PartialEq, Eq)]
    pub enum Semantics {
        If,
    }

    impl Semantics {
        pub fn has_if(self) -> bool {
            true
        }
    }

    #[derive(Clone, Copy, Debug, PartialEq, Eq)]
    pub enum LitData {
        None,
        Lit { lit: Lit, semantics: Option<Semantics> },
    }

    #[derive(Clone, Debug, PartialEq, Eq)]
    pub struct UnitNode {
        pub left: NodeCon,
        pub right: NodeCon,
        pub lits: Vec<LitData>,
        depth: usize,
    }

    #[derive(Clone, Debug, PartialEq, Eq)]
    pub struct GeneralNode {
        pub left: NodeCon,
        pub right: NodeCon,
    }

    #[derive(Clone, Debug, PartialEq, Eq)]
    pub enum Node {
        Leaf(Lit),
        Unit(UnitNode),
        General(GeneralNode),
        Dummy,
    }

    impl Node {
        pub fn leaf(lit: Lit) -> Self {
            Node::Leaf(lit)
        }

        pub fn internal(left: NodeCon, right: NodeCon, db: &Db) -> Self {
            let lits = vec![LitData::None; db.con_len(left) + db.con_len(right)];
            let depth = 1 + db[left.id].depth().max(db[right.id].depth());
            Node::Unit(UnitNode { left, right, lits, depth })
        }

        pub fn depth(&self) -> usize {
            match self {
                Node::Unit(unit) => unit.depth,
                _ => 0,
            }
        }

        pub fn max_val(&self) -> usize {
            match self {
                Node::Leaf(_) => 1,
                Node::Unit(unit) => unit.lits.len(),
                Node::Dummy => 0,
                Node::General(_) => unreachable!(),
            }
        }

        pub fn vals<R: RangeBounds<usize>>(&self, range: R) -> std::ops::RangeInclusive<usize> {
            let first = match range.start_bound() {
                Bound::Included(&value) => value.max(1),
                Bound::Excluded(&value) => value + 1,
                Bound::Unbounded => 1,
            };
            let last = match range.end_bound() {
                Bound::Included(&value) => value,
                Bound::Excluded(&value) => value.saturating_sub(1),
                Bound::Unbounded => usize::MAX,
            };
            first..=last.min(self.max_val())
        }

        pub fn lit(&self, value: usize) -> Option<&Lit> {
            match self {
                Node::Leaf(lit) => Some(lit).filter(|_| value == 1),
                Node::Unit(unit) => match unit.lits.get(value - 1) {
                    Some(LitData::Lit { lit, .. }) => Some(lit),
                    _ => None,
                },
                _ => None,
            }
        }

        pub fn left(&self) -> Option<NodeCon> {
            match self {
                Node::Unit(unit) => Some(unit.left),
                _ => None,
            }
        }

        pub fn right(&self) -> Option<NodeCon> {
            match self {
                Node::Unit(unit) => Some(unit.right),
                _ => None,
            }
        }

        pub fn unit(&self) -> &UnitNode {
            match self {
                Node::Unit(unit) => unit,
                _ => unreachable!(),
            }
        }

        pub fn mut_unit(&mut self) -> &mut UnitNode {
            match self {
                Node::Unit(unit) => unit,
                _ => unreachable!(),
            }
        }
    }

    #[derive(Default, Debug)]
    pub struct Db {
        nodes: Vec<Node>,
    }

    impl Index<NodeId> for Db {
        type Output = Node;
        fn index(&self, id: NodeId) -> &Node {
            &self.nodes[id.0]
        }
    }

    impl IndexMut<NodeId> for Db {
        fn index_mut(&mut self, id: NodeId) -> &mut Node {
            &mut self.nodes[id.0]
        }
    }

    impl Db {
        pub fn insert(&mut self, node: Node) -> NodeId {
            self.nodes.push(node);
            NodeId(self.nodes.len() - 1)
        }

        pub fn con_len(&self, con: NodeCon) -> usize {
            con.map(self[con.id].max_val())
        }

        pub fn merge_balanced(&mut self, cons: &[NodeCon]) -> Option<NodeCon> {
            if cons.len() <= 1 {
                return cons.first().copied();
            }
            let (front, back) = cons.split_at(cons.len() / 2);
            let left = self.merge_balanced(front)?;
            let right = self.merge_balanced(back)?;
            let node = Node::internal(left, right, self);
            Some(NodeCon::full(self.insert(node)))
        }

        /// The literal of a node's output, counted from 0, with its clauses where it has none yet.
        pub fn define_unweighted<Col: CollectClauses>(
            &mut self, id: NodeId, idx: usize, semantics: Semantics, collector: &mut Col, var_manager: &mut dyn ManageVars,
        ) -> Result<Lit, OutOfMemory> {
            let value = idx + 1;
            if let Some(&lit) = self[id].lit(value) {
                return Ok(lit);
            }
            let (left, right) = (self[id].left().unwrap(), self[id].right().unwrap());
            let mut sides = vec![];
            for a in 0..=value.min(self.con_len(left)) {
                let b = value - a;
                if b > self.con_len(right) {
                    continue;
                }
                let mut side = vec![];
                for (con, part) in [(left, a), (right, b)] {
                    if part > 0 {
                        let part = con.rev_map(part) - 1;
                        side.push(self.define_unweighted(con.id, part, semantics, collector, var_manager)?);
                    }
                }
                sides.push(side);
            }
            let lit = var_manager.new_var().pos_lit();
            self[id].mut_unit().lits[idx] = LitData::Lit { lit, semantics: Some(semantics) };
            for side in sides {
                collector.add_clause(super::atomics::cube_impl_lit(&side, lit))?;
            }
            Ok(lit)
        }

        pub fn reserve_vars(&mut self, _: NodeCon, _: &mut dyn ManageVars) {
            unreachable!()
        }

        pub fn reset_encoded(&mut self, _: Semantics) {
            unreachable!()
        }
    }
}

pub mod pb {
    use super::{CollectClauses, EnforceError};
    use crate::instances::ManageVars;
    use crate::types::Lit;
    use crate::OutOfMemory;
    use std::ops::{Bound, Range, RangeBounds};

    pub mod dpw;

    pub trait Encode {
        fn weight_sum(&self) -> usize;
    }

    pub trait EncodeIncremental: Encode {
        fn reserve(&mut self, var_manager: &mut dyn ManageVars);
    }

    pub trait BoundUpper: Encode {
        fn encode_ub<Col, R>(&mut self, range: R, collector: &mut Col, var_manager: &mut dyn ManageVars) -> Result<(), OutOfMemory>
        where
            Col: CollectClauses,
            R: RangeBounds<usize>;
        fn enforce_ub(&self, ub: usize) -> Result<Vec<Lit>, EnforceError>;
        fn coarse_ub(&self, ub: usize) -> usize;
    }

    pub trait BoundUpperIncremental: BoundUpper {
        fn encode_ub_change<Col, R>(&mut self, range: R, collector: &mut Col, var_manager: &mut dyn ManageVars) -> Result<(), OutOfMemory>
        where
            Col: CollectClauses,
            R: RangeBounds<usize>;
    }

    /// A half-open range as it is given.
    fn prepare_ub_range<R: RangeBounds<usize>>(encoding: &impl Encode, range: R) -> Range<usize> {
        let start = match range.start_bound() {
            Bound::Included(&value) => value,
            Bound::Excluded(&value) => value + 1,
            Bound::Unbounded => 0,
        };
        let end = match range.end_bound() {
            Bound::Included(&value) => value + 1,
            Bound::Excluded(&value) => value,
            Bound::Unbounded => encoding.weight_sum(),
        };
        start..end
    }
}
