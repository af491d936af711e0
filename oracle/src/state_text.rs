//! A job's state as text.
use crate::{
    job::{Held, State},
    text::{abilities, type_text, Detail},
};

/// A job's state on one line.
pub fn state_text(s: &State) -> String {
    let kinds = ["numeric", "bits", "ordered", "base", "single", "abilities"];
    let held = |h: &Held| {
        let set = if h.kind == 5 { abilities(h.abilities) + " " } else { String::new() };
        format!("{} @{} {}{}", kinds[h.kind as usize], h.loc, set, type_text(&h.ty, Detail::Full))
    };
    let bindings: Vec<_> = s.bindings.iter().map(|(v, t)| format!("V{} = {}", v, type_text(t, Detail::Full))).collect();
    let bits = |v: &u16| s.needs.iter().find(|(w, _)| w == v).map_or(String::new(), |(_, n)| format!(" {} bits", n));
    let marks: Vec<_> = s.marks.iter().map(|(v, loc)| format!("V{} @{}{}", v, loc, bits(v))).collect();
    let constraints: Vec<_> = s.constraints.iter().map(held).collect();
    let (b, m, c) = (bindings.join(", "), marks.join(", "), constraints.join(", "));
    format!("next V{}, S{}; bindings [{}]; numeric [{}]; constraints [{}]", s.next_var, s.structs, b, m, c)
}
