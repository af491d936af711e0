//! SHIM of crate::shared: just what the unchanged files mention.
use crate::diagnostics::Diagnostic;
use move_ir_types::location::*;
use move_symbol_pool::Symbol;
use std::{cell::Cell, collections::BTreeMap, fmt};

pub mod ast_debug;
pub mod unique_map;
pub mod unique_set;

pub mod known_attributes {
    #[derive(Debug, Clone, Copy, PartialEq, Eq, PartialOrd, Ord, Hash)]
    pub enum KnownAttribute {
        Other,
    }
    impl KnownAttribute {
        pub fn name(&self) -> &'static str {
            "other"
        }
    }
}

//---- names ---------------------------------------------------------------------------------------

pub trait TName: Eq + Ord + Clone {
    type Key: Ord + Clone;
    type Loc: Copy;
    fn drop_loc(self) -> (Self::Loc, Self::Key);
    fn add_loc(loc: Self::Loc, key: Self::Key) -> Self;
    fn borrow(&self) -> (&Self::Loc, &Self::Key);
}

pub trait Identifier {
    fn value(&self) -> Symbol;
    fn loc(&self) -> Loc;
}

pub type Name = Spanned<Symbol>;

//---- addresses -----------------------------------------------------------------------------------

#[derive(Debug, Clone, Copy, PartialEq, Eq, PartialOrd, Ord, Hash)]
pub struct NumericalAddress(pub u64);

impl NumericalAddress {
    pub const DEFAULT_ERROR_ADDRESS: Self = NumericalAddress(0);
}

impl fmt::Display for NumericalAddress {
    fn fmt(&self, f: &mut fmt::Formatter) -> fmt::Result {
        write!(f, "{:#X}", self.0)
    }
}

pub type NamedAddressMap = BTreeMap<Symbol, NumericalAddress>;

#[derive(Debug, Clone, Copy, PartialEq, Eq, PartialOrd, Ord)]
pub struct NamedAddressMapIndex(usize);

#[derive(Debug, Clone)]
pub struct NamedAddressMaps(Vec<NamedAddressMap>);

impl NamedAddressMaps {
    pub fn get(&self, idx: NamedAddressMapIndex) -> &NamedAddressMap {
        &self.0[idx.0]
    }
}

//---- the counter of variables -----------------------------------------------------------------------

// The compiler's is one counter for the process. Here each thread has one, and a job puts its own number
// in before each record, so that jobs can run side by side and each counts from 0.
thread_local!(static NEXT: Cell<u64> = const { Cell::new(0) });

pub struct Counter(());

impl Counter {
    pub fn next() -> u64 {
        NEXT.replace(Self::peek() + 1)
    }
    /// driver's: what `next` would give
    pub fn peek() -> u64 {
        NEXT.get()
    }
    /// driver's
    pub fn set(n: u64) {
        NEXT.set(n)
    }
}

//---- text ----------------------------------------------------------------------------------------

pub fn format_comma<T: fmt::Display, I: IntoIterator<Item = T>>(items: I) -> String {
    items.into_iter().map(|t| format!("{}", t)).collect::<Vec<_>>().join(", ")
}

//---- environment: records diagnostics -----------------------------------------------------------

pub struct CompilationEnv {
    diags: Vec<Diagnostic>,
}

impl CompilationEnv {
    pub fn new() -> Self {
        CompilationEnv { diags: vec![] }
    }
    pub fn add_diag(&mut self, diag: Diagnostic) {
        self.diags.push(diag)
    }
    /// driver's
    pub fn take_diags(&mut self) -> Vec<Diagnostic> {
        std::mem::take(&mut self.diags)
    }
}
