//! core.rs, unchanged, behind 01's record form. The five files under upstream/ are the supplied ones, byte for
//! byte (upstream.sha256); `shared`, `diagnostics`, `typing_ast` and shims/ stand in for what was not supplied.

#[macro_use(sp)]
extern crate move_ir_types;

pub mod diagnostics;
pub mod shared;

#[allow(warnings)]
pub mod parser {
    pub mod ast {
        include!("../upstream/parser/ast.rs");
    }
}
#[allow(warnings)]
pub mod expansion {
    pub mod ast {
        include!("../upstream/expansion/ast.rs");
    }
}
#[allow(warnings)]
pub mod naming {
    pub mod ast {
        include!("../upstream/naming/ast.rs");

        /// driver's: a variable's number is private to this module
        pub mod probe {
            use super::TVar;
            pub fn number(v: TVar) -> u64 {
                v.0
            }
            pub fn tvar(n: u64) -> TVar {
                TVar(n)
            }
        }
    }
}
#[allow(warnings)]
pub mod typing {
    pub mod ast {
        include!("typing_ast.rs");
    }

    pub mod core {
        // `std` inside core.rs's text: the real one but for HashMap, which walks in rising order
        #[cfg(not(feature = "hashmap"))]
        mod std {
            pub use ::std::*;
            pub mod collections {
                pub use ::std::collections::{BTreeMap, BTreeSet};
                pub type HashMap<K, V> = BTreeMap<K, V>;
            }
        }

        include!("../upstream/typing/core.rs");

        /// driver's: the tables are private to this module
        pub mod probe {
            use super::*;
            pub fn num_vars(s: &Subst) -> Vec<(TVar, Loc)> {
                let mut v: Vec<_> = s.num_vars.iter().map(|(k, l)| (*k, *l)).collect();
                v.sort_by_key(|(k, _)| *k);
                v
            }
            pub fn mark(s: &mut Subst, v: TVar, l: Loc) {
                s.num_vars.insert(v, l);
            }
            pub fn bindings(s: &Subst) -> Vec<(TVar, Type)> {
                let mut v: Vec<_> = s.tvars.iter().map(|(k, t)| (*k, t.clone())).collect();
                v.sort_by_key(|(k, _)| *k);
                v
            }
        }
    }

    pub mod expand {
        include!("../upstream/typing/expand.rs");
    }
}

pub struct FullyCompiledProgram {
    pub naming: naming::ast::Program,
}

pub mod bench;
pub mod calls;
pub mod compare;
pub mod count;
pub mod damage;
pub mod gen;
pub mod job;
pub mod keep;
pub mod lender;
pub mod lent;
pub mod list;
pub mod many;
pub mod order;
pub mod program;
pub mod release;
pub mod shrink;
pub mod spelled;
pub mod state_text;
pub mod traps;
pub mod twice;

/// the record form, jobs as text and the printer, under the names that this crate uses
pub use joblog::{record, show, text};
