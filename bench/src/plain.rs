//! Document 01's first build, refinement, encode and enforce written plainly: heap vectors for nodes and clauses, for each node a
//! vector of its outputs' numbers by value. No refusals, no lent memory, no test of what is handed in.

#[derive(Clone, Copy)]
struct Join {
    left: usize,
    right: usize,
    halved: bool,
}

#[derive(Clone, Copy)]
enum Node {
    Leaf(i32),
    Join(Join),
    Dummy,
}

/// A bucket as it stood before a refinement: half of its right maximum, its outputs as number and value in number order.
struct Former {
    bucket: usize,
    half: usize,
    outputs: Vec<(i32, usize)>,
}

pub struct Plain {
    nodes: Vec<Node>,
    maxima: Vec<usize>,
    /// By node and value; 0 where there is none.
    outputs: Vec<Vec<i32>>,
    defined: usize,
    /// The largest weight first, once built.
    waiting: Vec<(usize, u64)>,
    tares: Vec<i32>,
    /// The lowest first; the last is the root.
    buckets: Vec<usize>,
    sum: u64,
    set: u64,
    /// 0 until the first build.
    built: u64,
    fresh: i32,
    pub clauses: Vec<i32>,
    pub count: usize,
}

fn power(number: u64) -> usize {
    63 - number.max(1).leading_zeros() as usize
}

impl Plain {
    pub fn new(lits: &[i32], weights: &[u64], first: u32) -> Self {
        let mut plain = Plain {
            nodes: Vec::new(), maxima: Vec::new(), outputs: Vec::new(), defined: 0, waiting: Vec::new(), tares: Vec::new(),
            buckets: Vec::new(), sum: weights.iter().sum(), set: 1, built: 0, fresh: first as i32, clauses: Vec::new(), count: 0,
        };
        for (&literal, &weight) in lits.iter().zip(weights) {
            let node = plain.add(Node::Leaf(literal), 1);
            plain.waiting.push((node, weight));
        }
        plain
    }

    pub fn set(&mut self, divisor: u64) {
        self.set = divisor;
    }

    /// What the library keeps a record for.
    pub fn records(&self) -> usize {
        self.nodes.len() + self.defined + self.waiting.len()
    }

    fn add(&mut self, node: Node, maximum: usize) -> usize {
        self.nodes.push(node);
        self.maxima.push(maximum);
        self.outputs.push(Vec::new());
        self.nodes.len() - 1
    }

    fn join(&mut self, left: usize, right: usize, halved: bool) -> usize {
        let counted = if halved { self.maxima[right] / 2 } else { self.maxima[right] };
        let maximum = self.maxima[left] + counted;
        self.add(Node::Join(Join { left, right, halved }), maximum)
    }

    fn merge(&mut self, members: &[usize]) -> usize {
        if let [only] = members {
            return *only;
        }
        let (front, back) = members.split_at(members.len() / 2);
        let left = self.merge(front);
        let right = self.merge(back);
        self.join(left, right, false)
    }

    /// The number of an output, 0 where it is not defined.
    fn numbered(&self, node: usize, value: usize) -> i32 {
        self.outputs[node].get(value).copied().unwrap_or(0)
    }

    fn define(&mut self, node: usize, value: usize, number: i32) {
        let numbers = &mut self.outputs[node];
        if numbers.len() <= value {
            numbers.resize(value + 1, 0);
        }
        numbers[value] = number;
        self.defined += 1;
    }

    fn number(&mut self) -> i32 {
        self.fresh += 1;
        self.fresh - 1
    }

    /// The queue taken down to the set divisor: the members of each power's bucket, for the powers below this one.
    fn gather(&mut self, powers: usize) -> Vec<Vec<usize>> {
        let mut members = vec![Vec::new(); powers];
        let mut queue = std::mem::take(&mut self.waiting);
        queue.sort_by(|a, b| b.1.cmp(&a.1));
        while queue.first().map_or(false, |entry| entry.1 >= self.set) {
            let weight = queue[0].1;
            let run = queue.partition_point(|entry| entry.1 == weight);
            let nodes: Vec<usize> = queue.drain(..run).map(|entry| entry.0).collect();
            let node = self.merge(&nodes);
            members[power(weight)].push(node);
            let rest = weight - (1 << power(weight));
            if rest > 0 {
                let place = queue.partition_point(|entry| entry.1 >= rest);
                queue.insert(place, (node, rest));
            }
        }
        self.waiting = queue;
        members
    }

    /// Buckets over members and tares of rising power; where the tares have ended a bucket gets none.
    fn stack(&mut self, members: Vec<Vec<usize>>, tares: &[i32]) -> Vec<usize> {
        let mut buckets = Vec::new();
        for (place, mut nodes) in members.into_iter().enumerate() {
            if nodes.is_empty() && buckets.is_empty() {
                continue;
            }
            if let Some(&tare) = tares.get(place) {
                nodes.push(self.add(Node::Leaf(tare), 1));
            }
            nodes.sort_by_key(|&node| self.maxima[node]);
            let mut bucket = self.merge(&nodes);
            if let Some(&lower) = buckets.last() {
                bucket = self.join(bucket, lower, true);
            } else if !self.waiting.is_empty() {
                let dummy = self.add(Node::Dummy, 0);
                bucket = self.join(bucket, dummy, true);
            }
            buckets.push(bucket);
        }
        buckets
    }

    fn build(&mut self) {
        let largest = self.waiting.iter().map(|entry| entry.1).max().unwrap_or(0);
        let (lowest, top) = (power(self.set), power(largest));
        let members = self.gather(top + 1).split_off(lowest);
        let tares: Vec<i32> = (lowest..top).map(|_| self.number()).collect();
        self.buckets = self.stack(members, &tares);
        self.tares = tares;
        self.built = self.set;
    }

    /// Whether a waiting weight reaches the set divisor.
    fn due(&self) -> bool {
        self.waiting.first().map_or(false, |entry| entry.1 >= self.set)
    }

    fn refine(&mut self) {
        let old = std::mem::take(&mut self.buckets);
        let formers: Vec<Former> = old.iter().map(|&bucket| self.former(bucket)).collect();
        let (lowest, above) = (power(self.set), power(self.built));
        let mut members = self.gather(above).split_off(lowest);
        let mut tares: Vec<i32> = (lowest..above).map(|_| self.number()).collect();
        let once_left_out = self.tares.len() + 1 - old.len();
        members.resize(members.len() + once_left_out, Vec::new());
        tares.append(&mut self.tares);
        self.buckets = self.stack(members, &tares);
        self.tares = tares;
        self.built = self.set;
        for bucket in old {
            self.link(bucket);
        }
        for former in formers {
            self.extend(former);
        }
    }

    fn join_at(&self, bucket: usize) -> Join {
        match self.nodes[bucket] {
            Node::Join(join) => join,
            _ => unreachable!("a bucket of a build in which something waits is a join"),
        }
    }

    fn former(&self, bucket: usize) -> Former {
        let numbered = |value| (self.numbered(bucket, value), value);
        let mut outputs: Vec<(i32, usize)> = (1..=self.maxima[bucket]).map(numbered).filter(|output| output.0 != 0).collect();
        outputs.sort();
        Former { bucket, half: self.maxima[self.join_at(bucket).right] / 2, outputs }
    }

    /// Puts an old bucket on top of the others, its maximum brought up to date.
    fn link(&mut self, bucket: usize) {
        let left = self.join_at(bucket).left;
        let right = self.buckets[self.buckets.len() - 1];
        self.nodes[bucket] = Node::Join(Join { left, right, halved: true });
        self.maxima[bucket] = self.maxima[left] + self.maxima[right] / 2;
        self.buckets.push(bucket);
    }

    fn extend(&mut self, former: Former) {
        let join = self.join_at(former.bucket);
        for (number, value) in former.outputs {
            let sides = self.sides(join, value, former.half + 1);
            self.write(&sides, number);
        }
    }

    /// The literal of an output, which is defined where it is not yet; 0 for value 0.
    fn output(&mut self, node: usize, value: usize) -> i32 {
        if value == 0 {
            return 0;
        }
        let join = match self.nodes[node] {
            Node::Leaf(literal) => return literal,
            Node::Dummy => unreachable!("a dummy's maximum is 0"),
            Node::Join(join) => join,
        };
        let defined = self.numbered(node, value);
        if defined != 0 {
            return defined;
        }
        let sides = self.sides(join, value, 0);
        let number = self.number();
        self.define(node, value, number);
        self.write(&sides, number);
        number
    }

    /// The literals left and right of the pairs of this value whose b is at least `least`.
    fn sides(&mut self, join: Join, value: usize, least: usize) -> Vec<(i32, i32)> {
        let asked = if join.halved { 2 } else { 1 };
        let (most_left, most_right) = (self.maxima[join.left], self.maxima[join.right] / asked);
        let mut sides = Vec::new();
        for a in value.saturating_sub(most_right)..=value.min(most_left) {
            let b = value - a;
            if b >= least {
                sides.push((self.output(join.left, a), self.output(join.right, asked * b)));
            }
        }
        sides
    }

    fn write(&mut self, sides: &[(i32, i32)], number: i32) {
        for &(left, right) in sides {
            self.clauses.extend([left, right].iter().filter(|&&side| side != 0).map(|side| -side));
            self.clauses.extend([number, 0]);
            self.count += 1;
        }
    }

    pub fn encode(&mut self, lo: u64, end: u64) {
        if self.built == 0 {
            self.build();
        } else if self.due() {
            self.refine();
        }
        let root = self.buckets[self.buckets.len() - 1];
        let weight = 1u64 << self.tares.len();
        let last = ((end - 1) / weight + 1).min(self.maxima[root] as u64);
        for value in lo / weight + 1..=last {
            self.output(root, value as usize);
        }
    }

    /// The literals to assume, or none where the bound is not encoded.
    pub fn enforce(&self, u: u64) -> Option<Vec<i32>> {
        if self.sum <= u && self.set == 1 {
            return Some(Vec::new());
        }
        let &root = self.buckets.last()?;
        if self.due() {
            return None;
        }
        let u = u / (self.built / self.set);
        let weight = 1u64 << self.tares.len();
        let j = u / weight;
        if j >= self.maxima[root] as u64 {
            return Some(Vec::new());
        }
        let output = self.numbered(root, j as usize + 1);
        if output == 0 {
            return None;
        }
        let lacking = weight - 1 - u % weight;
        let mut answer = vec![-output];
        answer.extend((0..self.tares.len()).rev().filter(|k| lacking >> k & 1 == 1).map(|k| self.tares[k]));
        Some(answer)
    }
}
