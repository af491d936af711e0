//! The lent state (docs/STATE.md) read, written and tested. Uses no code of the engine's; its test follows 01, the readings and the definition's `sound`, so it is no
//! check of that definition.
use crate::{
    job::{Held, State},
    record::{Kind, Ty, BUILTINS},
};

pub const WORDS: usize = 24_069;
pub const MAX_NODES: usize = 2048;
pub const MAX_PLACES: usize = 4096;
pub const MAX_VARS: usize = 1024;
pub const MAX_CONSTRAINTS: usize = 512;
pub const MAX_STRUCTS: usize = 256;
pub type Params = [[u8; 8]; MAX_STRUCTS];

pub const LIMITS: [usize; 5] = [MAX_NODES, MAX_PLACES, MAX_VARS, MAX_CONSTRAINTS, MAX_STRUCTS];
/// words in a row of each table, and where the table begins
const WIDTH: [usize; 5] = [6, 1, 5, 4, 2];
const START: [usize; 5] = [5, 12_293, 16_389, 21_509, 23_557];
const NODE: usize = 0;
const PLACE: usize = 1;
const VAR: usize = 2;
const CONSTRAINT: usize = 3;
const STRUCT: usize = 4;

#[derive(Clone, PartialEq, Eq)]
pub struct Lent {
    pub words: Vec<u32>,
    pub params: Params,
}

/// A declaration: abilities and parameter bytes.
pub type Declared = (u8, Vec<u8>);

pub fn fresh() -> Lent {
    Lent { words: vec![0; WORDS], params: [[0; 8]; MAX_STRUCTS] }
}

//---- reading -------------------------------------------------------------------------------------------

/// The words of a sound state and its parameter bytes.
#[derive(Clone, Copy)]
pub struct View<'a> {
    pub words: &'a [u32],
    pub params: &'a Params,
}

impl Lent {
    pub fn view(&self) -> View<'_> {
        View { words: &self.words, params: &self.params }
    }
}

impl<'a> View<'a> {
    pub fn used(&self, table: usize) -> usize {
        self.words[table] as usize
    }
    pub fn nodes(&self) -> usize {
        self.used(NODE)
    }
    pub fn places(&self) -> usize {
        self.used(PLACE)
    }
    pub fn vars(&self) -> usize {
        self.used(VAR)
    }
    fn row(&self, table: usize, i: usize) -> &'a [u32] {
        let at = START[table] + WIDTH[table] * i;
        &self.words[at..at + WIDTH[table]]
    }
    pub fn node(&self, i: usize) -> [u32; 6] {
        self.row(NODE, i).try_into().unwrap()
    }
    fn place(&self, i: usize) -> usize {
        self.row(PLACE, i)[0] as usize
    }

    /// a node's parts
    pub fn parts(&self, i: usize) -> Vec<usize> {
        let [tag, _, _, b, first, many] = self.node(i);
        match tag {
            1 => vec![b as usize],
            3..=5 => (first..first + many).map(|p| self.place(p as usize)).collect(),
            _ => vec![],
        }
    }

    /// the type at a node, as a tree
    pub fn ty(&self, i: usize) -> Ty {
        let [tag, loc, a, b, _, _] = self.node(i);
        let parts = || self.parts(i).into_iter().map(|p| self.ty(p)).collect::<Vec<_>>();
        let kind = match tag {
            0 => Kind::Unit,
            1 => Kind::Ref(a == 1, Box::new(self.ty(b as usize))),
            2 => Kind::Param(a, b as u8),
            3 => Kind::Builtin(a as u8, b as u8, parts()),
            4 => Kind::List(a as u8, parts()),
            5 => Kind::Struct(a as u8, b as u16, parts()),
            6 => Kind::Var(a as u16),
            7 => Kind::Anything,
            _ => Kind::UnresolvedError,
        };
        Ty { loc, kind }
    }

    /// how many parts each node's tree has, itself among them
    pub fn tree_sizes(&self) -> Vec<u64> {
        let mut sizes: Vec<u64> = vec![];
        for i in 0..self.nodes() {
            let parts = self.parts(i).into_iter().map(|p| sizes[p]);
            sizes.push(parts.fold(1, u64::saturating_add))
        }
        sizes
    }

    pub fn binding(&self, v: usize) -> Option<usize> {
        let row = self.row(VAR, v);
        (row[0] == 1).then_some(row[1] as usize)
    }
    pub fn mark(&self, v: usize) -> Option<u32> {
        let row = self.row(VAR, v);
        (row[2] == 1).then_some(row[3])
    }
    /// how many bits it needs (02, R-7), 0 for none
    pub fn need(&self, v: usize) -> u32 {
        self.row(VAR, v)[4]
    }
    /// kind as in the words, location, node, abilities
    pub fn constraint(&self, i: usize) -> [u32; 4] {
        self.row(CONSTRAINT, i).try_into().unwrap()
    }
    pub fn constraints(&self) -> usize {
        self.used(CONSTRAINT)
    }
    pub fn structs(&self) -> usize {
        self.used(STRUCT)
    }
    pub fn declared(&self, i: usize) -> Declared {
        let row = self.row(STRUCT, i);
        (row[0] as u8, self.params[i][..row[1] as usize].to_vec())
    }

    /// What core.rs holds of the same state.
    pub fn state(&self) -> State {
        let vars = || 0..self.vars();
        let held = |i| {
            let [kind, loc, node, abilities] = self.constraint(i);
            // core.rs's kinds have abilities last
            let kind = if kind == 0 { 5 } else { kind as u8 - 1 };
            Held { kind, loc, abilities: abilities as u8, ty: self.ty(node as usize) }
        };
        State {
            next_var: self.vars() as u64,
            structs: self.structs(),
            bindings: vars().filter_map(|v| Some((v as u16, self.ty(self.binding(v)?)))).collect(),
            marks: vars().filter_map(|v| Some((v as u16, self.mark(v)?))).collect(),
            needs: vars().map(|v| (v as u16, self.need(v) as u16)).filter(|(_, need)| *need > 0).collect(),
            constraints: (0..self.constraints()).map(held).collect(),
        }
    }
}

//---- 02, R-7: what is known of literals only grows ------------------------------------------------------------

impl View<'_> {
    /// where a variable's chain ends
    pub fn end(&self, v: usize) -> usize {
        self.chain(v).last().unwrap_or(v)
    }
    /// the variable, the one that it is bound to, and so on
    pub fn chain(&self, v: usize) -> impl Iterator<Item = usize> + '_ {
        let next = |v: &usize| match self.binding(*v).map(|n| self.node(n)) {
            Some([6, _, next, ..]) => Some(next as usize),
            _ => None,
        };
        std::iter::successors(Some(v), next)
    }

    /// No variable of `before` loses its mark, and no need sinks, its own or its chain end's. `moved`: where each is here, if it
    /// is.
    pub fn grown_from(&self, before: View, moved: impl Fn(usize) -> Option<usize>) -> Result<(), String> {
        let sunk = |v: usize, here: usize| {
            before.mark(v).is_some() && self.mark(here).is_none()
                || self.need(here) < before.need(v)
                || self.need(self.end(here)) < before.need(before.end(v))
        };
        let found = (0..before.vars()).find(|v| moved(*v).is_some_and(|here| sunk(*v, here)));
        found.map_or(Ok(()), |v| Err(format!("V{}'s mark or need sinks", v)))
    }

    /// In a job without SN each numeric variable's chain end is numeric, needs no less, and is open, or holds `!` or an
    /// integer type at least as wide.
    pub fn met(&self) -> Result<(), String> {
        let met = |v: usize| {
            let end = self.end(v);
            let holds = self.binding(end).is_none_or(|n| match self.node(n) {
                [3, _, _, number, ..] => bits_of(number) >= self.need(end).max(1),
                [tag, ..] => tag == 8,
            });
            self.mark(end).is_some() && self.need(end) >= self.need(v) && holds
        };
        let unmet = (0..self.vars()).find(|v| self.mark(*v).is_some() && !met(*v));
        unmet.map_or(Ok(()), |v| Err(format!("V{} is not met", v)))
    }
}

/// of a builtin, 0 where it is no integer type
fn bits_of(number: u32) -> u32 {
    let name = BUILTINS[number as usize].name;
    name.strip_prefix('u').and_then(|bits| bits.parse().ok()).unwrap_or(0)
}

//---- 01, "a sound state" -------------------------------------------------------------------------------------

type Sound = Result<(), &'static str>;

fn holds(fact: bool, what: &'static str) -> Sound {
    fact.then_some(()).ok_or(what)
}

/// Err says which of 01's rules is broken.
pub fn sound(words: &[u32], params: &Params) -> Sound {
    holds(words.len() == WORDS, "length")?;
    let s = View { words, params };
    for (table, limit) in LIMITS.into_iter().enumerate() {
        holds(s.used(table) <= limit, "counts within limits")?
    }
    s.zero_past_counts()?;
    (0..s.structs()).try_for_each(|i| s.struct_allowed(i))?;
    (0..MAX_STRUCTS).try_for_each(|i| s.bytes_allowed(i))?;
    (0..s.nodes()).try_for_each(|i| s.node_allowed(i))?;
    (0..s.vars()).try_for_each(|v| s.var_allowed(v))?;
    (0..s.constraints()).try_for_each(|i| s.constraint_allowed(i))?;
    (0..s.vars()).try_for_each(|v| s.chain_ends(v))
}

impl View<'_> {
    fn zero_past_counts(&self) -> Sound {
        for table in 0..5 {
            let past = START[table] + WIDTH[table] * self.used(table);
            let end = START[table] + WIDTH[table] * LIMITS[table];
            holds(self.words[past..end].iter().all(|w| *w == 0), "words past the counts are zero")?
        }
        Ok(())
    }

    fn struct_allowed(&self, i: usize) -> Sound {
        let row = self.row(STRUCT, i);
        holds(row[0] <= 15 && row[1] <= 8, "a declaration's fields")
    }

    fn bytes_allowed(&self, i: usize) -> Sound {
        let count = if i < self.structs() { self.row(STRUCT, i)[1] as usize } else { 0 };
        let (bytes, past) = self.params[i].split_at(count);
        holds(bytes.iter().all(|b| *b <= 31), "a parameter byte")?;
        holds(past.iter().all(|b| *b == 0), "parameter bytes past the count are zero")
    }

    fn node_allowed(&self, i: usize) -> Sound {
        let [tag, _, a, b, c, d] = self.node(i);
        let fields = match tag {
            0 | 7 | 8 => [a, b, c, d] == [0; 4],
            1 => a <= 1 && (b as usize) < i && [c, d] == [0; 2],
            2 => b <= 15 && [c, d] == [0; 2],
            3..=5 => return self.named_allowed(i),
            6 => (a as usize) < self.vars() && [b, c, d] == [0; 3],
            _ => false,
        };
        holds(fields, "a node's fields")
    }

    /// a builtin, list or struct: mark, name, as many places as the name has arguments, smaller parts
    fn named_allowed(&self, i: usize) -> Sound {
        let [tag, _, mark, name, first, many] = self.node(i);
        holds(mark == 0 || (16..32).contains(&mark), "an ability mark")?;
        let arguments = match (tag, name as usize) {
            (3, n) if n < BUILTINS.len() => BUILTINS[n].arguments as u32,
            (4, 0..=8) => name,
            (5, n) if n < self.structs() => self.row(STRUCT, n)[1],
            _ => return Err("a name"),
        };
        let integer = tag == 3 && BUILTINS[name as usize].integer;
        holds(!integer || mark == 0 || mark & 2 != 0, "an integer type's mark has drop")?;
        holds(many == arguments, "as many places as arguments")?;
        let end = first as usize + many as usize;
        holds(end <= self.places(), "places below the used count")?;
        let mut parts = (first as usize..end).map(|p| self.place(p));
        holds(parts.all(|p| p < i), "a node's parts have smaller numbers")
    }

    fn var_allowed(&self, v: usize) -> Sound {
        let [bound, node, numeric, loc, need]: [u32; 5] = self.row(VAR, v).try_into().unwrap();
        holds(bound <= 1 && numeric <= 1, "a variable's fields")?;
        holds(need <= if numeric == 1 { 256 } else { 0 }, "a variable's need")?;
        holds(bound == 1 || node == 0, "unbound: no node")?;
        holds(numeric == 1 || loc == 0, "unmarked: no location")?;
        holds(bound == 0 || (node as usize) < self.nodes(), "a binding is a node")?;
        holds(bound == 0 || self.node(node as usize)[0] != 7, "no binding is `_`")
    }

    fn constraint_allowed(&self, i: usize) -> Sound {
        let [kind, _, node, abilities] = self.constraint(i);
        holds(kind <= 5 && (node as usize) < self.nodes(), "a constraint's fields")?;
        holds(abilities <= if kind == 0 { 15 } else { 0 }, "a constraint's abilities")
    }

    fn chain_ends(&self, mut v: usize) -> Sound {
        for _ in 0..=self.vars() {
            match self.binding(v).map(|n| self.node(n)) {
                Some([6, _, next, ..]) => v = next as usize,
                _ => return Ok(()),
            }
        }
        Err("a chain of variables ends")
    }
}

//---- 02, R-11: what KP leaves --------------------------------------------------------------------------------

/// The state that KP leaves, and the variables that stay, by rising number: from there on they are 0, 1, 2 and so on.
pub struct Cleared {
    pub lent: Lent,
    pub stay: Vec<u16>,
}

impl Cleared {
    /// where a variable goes
    pub fn moved(&self, v: usize) -> Option<usize> {
        self.stay.binary_search(&(v as u16)).ok()
    }
}

/// which nodes, places and variables are kept
struct Kept {
    nodes: Vec<bool>,
    places: Vec<bool>,
    vars: Vec<bool>,
}

/// For each number, and the one past them, how many kept ones are below it.
fn slid(kept: &[bool]) -> Vec<u32> {
    let mut below = vec![0];
    below.extend(kept.iter().scan(0, |n, k| {
        *n += *k as u32;
        Some(*n)
    }));
    below
}

fn those(kept: &[bool]) -> impl Iterator<Item = usize> + '_ {
    (0..kept.len()).filter(|i| kept[*i])
}

impl View<'_> {
    /// The listed variables, the constraints' types, and what both reach: bindings, parts, variables. A node's places go with it.
    fn kept(&self, listed: &[u16]) -> Kept {
        let mut kept = Kept {
            nodes: vec![false; self.nodes()],
            places: vec![false; self.places()],
            vars: vec![false; self.vars()],
        };
        let mut nodes: Vec<usize> = (0..self.constraints()).map(|i| self.constraint(i)[2] as usize).collect();
        let mut vars: Vec<usize> = listed.iter().map(|v| *v as usize).collect();
        while !(nodes.is_empty() && vars.is_empty()) {
            for v in std::mem::take(&mut vars) {
                if !std::mem::replace(&mut kept.vars[v], true) {
                    nodes.extend(self.binding(v))
                }
            }
            for n in std::mem::take(&mut nodes) {
                if !std::mem::replace(&mut kept.nodes[n], true) {
                    nodes.extend(self.parts(n));
                    vars.extend(Some(self.node(n)).filter(|row| row[0] == 6).map(|row| row[2] as usize))
                }
            }
        }
        for n in those(&kept.nodes) {
            if let [3..=5, _, _, _, first, many] = self.node(n) {
                kept.places[first as usize..(first + many) as usize].fill(true)
            }
        }
        kept
    }

    /// .. each under the number of kept ones that were below it; a place that is shared stays so, and gaps close. A node without
    /// arguments has the number that its first place would have.
    pub fn cleared(&self, listed: &[u16]) -> Cleared {
        let kept = self.kept(listed);
        let [nodes, places, vars] = [&kept.nodes, &kept.places, &kept.vars].map(|k| slid(k));
        let mut lent = Lent { params: *self.params, ..fresh() };
        for n in those(&kept.nodes) {
            let [tag, loc, a, b, first, many] = self.node(n);
            let row = match tag {
                1 => [tag, loc, a, nodes[b as usize], first, many],
                3..=5 => [tag, loc, a, b, places[first as usize], many],
                6 => [tag, loc, vars[a as usize], b, first, many],
                _ => [tag, loc, a, b, first, many],
            };
            lent.push(NODE, &row);
        }
        for p in those(&kept.places) {
            lent.push(PLACE, &[nodes[self.place(p)]]);
        }
        for v in those(&kept.vars) {
            let mut row = self.row(VAR, v).to_vec();
            row[1] = self.binding(v).map_or(0, |n| nodes[n]);
            lent.push(VAR, &row);
        }
        for i in 0..self.constraints() {
            let [kind, loc, node, abilities] = self.constraint(i);
            lent.push(CONSTRAINT, &[kind, loc, nodes[node as usize], abilities]);
        }
        for i in 0..self.structs() {
            lent.push(STRUCT, self.row(STRUCT, i));
        }
        Cleared { lent, stay: those(&kept.vars).map(|v| v as u16).collect() }
    }
}

//---- writing -------------------------------------------------------------------------------------------------

impl Lent {
    /// the next row of a table; None where none is left
    fn push(&mut self, table: usize, row: &[u32]) -> Option<usize> {
        let i = self.words[table] as usize;
        let at = START[table] + WIDTH[table] * i;
        (i < LIMITS[table]).then(|| self.words[at..at + row.len()].copy_from_slice(row))?;
        self.words[table] += 1;
        Some(i)
    }

    /// A node whose parts are nodes; a reference's part is its field b.
    pub fn add_node(&mut self, tag: u32, loc: u32, a: u32, b: u32, parts: &[usize]) -> Option<usize> {
        let named = (3..=5).contains(&tag);
        let first = if named { self.words[PLACE] } else { 0 };
        for p in parts {
            self.push(PLACE, &[*p as u32])?;
        }
        self.push(NODE, &[tag, loc, a, b, first, parts.len() as u32])
    }

    pub fn add_place(&mut self, node: usize) -> Option<usize> {
        self.push(PLACE, &[node as u32])
    }
    /// a list of the eight places from `first` on, which other nodes may have too
    pub fn add_list(&mut self, first: usize) -> Option<usize> {
        self.add_shared(0, 0, first, 8)
    }
    /// .. of `many` of them
    pub fn add_shared(&mut self, loc: u32, mark: u32, first: usize, many: usize) -> Option<usize> {
        self.push(NODE, &[4, loc, mark, many as u32, first as u32, many as u32])
    }

    pub fn add_type(&mut self, t: &Ty) -> Option<usize> {
        let parts = t.parts().iter().map(|p| self.add_type(p)).collect::<Option<Vec<_>>>()?;
        let n = parts.len() as u32;
        match &t.kind {
            Kind::Unit => self.add_node(0, t.loc, 0, 0, &[]),
            Kind::Ref(m, _) => self.add_node(1, t.loc, *m as u32, parts[0] as u32, &[]),
            Kind::Param(id, set) => self.add_node(2, t.loc, *id, *set as u32, &[]),
            Kind::Builtin(m, b, _) => self.add_node(3, t.loc, *m as u32, *b as u32, &parts),
            Kind::List(m, _) => self.add_node(4, t.loc, *m as u32, n, &parts),
            Kind::Struct(m, s, _) => self.add_node(5, t.loc, *m as u32, *s as u32, &parts),
            Kind::Var(v) => self.add_node(6, t.loc, *v as u32, 0, &[]),
            Kind::Anything => self.add_node(7, t.loc, 0, 0, &[]),
            Kind::UnresolvedError => self.add_node(8, t.loc, 0, 0, &[]),
        }
    }

    pub fn add_var(&mut self) -> Option<usize> {
        self.push(VAR, &[0; 5])
    }
    pub fn bind(&mut self, v: usize, node: usize) {
        let at = START[VAR] + WIDTH[VAR] * v;
        self.words[at..at + 2].copy_from_slice(&[1, node as u32])
    }
    pub fn set_mark(&mut self, v: usize, loc: u32) {
        let at = START[VAR] + WIDTH[VAR] * v;
        self.words[at + 2..at + 4].copy_from_slice(&[1, loc])
    }
    pub fn clear_mark(&mut self, v: usize) {
        let at = START[VAR] + WIDTH[VAR] * v;
        self.words[at + 2..at + 5].fill(0)
    }
    pub fn set_need(&mut self, v: usize, bits: u32) {
        self.words[START[VAR] + WIDTH[VAR] * v + 4] = bits
    }
    pub fn add_constraint(&mut self, kind: u32, loc: u32, node: usize, abilities: u8) -> Option<usize> {
        self.push(CONSTRAINT, &[kind, loc, node as u32, abilities as u32])
    }
    pub fn declare(&mut self, (abilities, bytes): &Declared) -> Option<usize> {
        let i = self.push(STRUCT, &[*abilities as u32, bytes.len() as u32])?;
        self.params[i][..bytes.len()].copy_from_slice(bytes);
        Some(i)
    }
}

/// For calls that are to be found out: the last marked variable loses its mark.
pub fn drop_mark(words: &mut [u32]) {
    let row = |v: usize| START[VAR] + WIDTH[VAR] * v;
    if let Some(v) = (0..words[VAR] as usize).rev().find(|v| words[row(*v) + 2] == 1) {
        words[row(v) + 2..row(v) + 5].fill(0)
    }
}

/// .. the last place stands there once more
pub fn copy_place(words: &mut [u32]) {
    let n = words[PLACE] as usize;
    if (1..MAX_PLACES).contains(&n) {
        words[START[PLACE] + n] = words[START[PLACE] + n - 1];
        words[PLACE] += 1
    }
}

impl Lent {
    /// where another state first differs
    pub fn first_other(&self, other: &Lent) -> String {
        let word = (0..WORDS).find(|i| self.words[*i] != other.words[*i]);
        word.map_or("parameter byte".into(), place_of_word)
    }
}

/// The words of a state that core.rs holds, each type with nodes of its own; None where they do not fit.
pub fn encode(s: &State, declared: &[Declared]) -> Option<Lent> {
    let mut out = fresh();
    for d in declared {
        out.declare(d)?;
    }
    for _ in 0..s.next_var {
        out.add_var()?;
    }
    for (v, t) in &s.bindings {
        let node = out.add_type(t)?;
        out.bind(*v as usize, node)
    }
    for (v, loc) in &s.marks {
        out.set_mark(*v as usize, *loc)
    }
    for (v, bits) in &s.needs {
        out.set_need(*v as usize, *bits as u32)
    }
    for h in &s.constraints {
        let node = out.add_type(&h.ty)?;
        out.add_constraint((h.kind as u32 + 1) % 6, h.loc, node, h.abilities)?;
    }
    Some(out)
}

impl View<'_> {
    /// whether word i is a count or in a row in use
    pub fn in_use(&self, i: usize) -> bool {
        let in_table = |t: usize| (START[t]..START[t] + WIDTH[t] * self.used(t)).contains(&i);
        i < 5 || (0..5).any(in_table)
    }
}

/// Which field of which row a word is, for a message.
pub fn place_of_word(i: usize) -> String {
    let names = ["node", "place", "variable", "constraint", "struct"];
    match (0..5).rev().find(|t| START[*t] <= i) {
        Some(t) => format!("{} {} field {}", names[t], (i - START[t]) / WIDTH[t], (i - START[t]) % WIDTH[t]),
        None => format!("count of {}s", names[i]),
    }
}
