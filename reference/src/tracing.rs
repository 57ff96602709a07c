//! The call trace: is a target a member, by the folded graph of the words? The graph is built in memory
//! of its own, so the table that is lent is measured and left as it is.

use crate::answers::{Answer, MEMBER, NOT_A_MEMBER};
use crate::graph::traces;
use crate::records::{read_system, read_target_or_product, MOST_RECORDS};
use crate::refusals::{Refusal, EDGE_TABLE_SHORT};
use crate::words::{Word, LONGEST};

/// The most edges that a graph has before it is folded, those of 16 loops of 63 letters.
pub const MOST_EDGES: usize = MOST_RECORDS * LONGEST;

/// An edge of a table: the point that it leaves, its letter, and the point that it enters.
#[derive(Clone, Copy, Debug, Default, PartialEq, Eq)]
#[repr(C)]
pub struct Edge {
    pub from: u16,
    pub letter: u16,
    pub to: u16,
}

/// Decides whether the target is a member, by tracing it through the folded graph of the system.
pub fn trace(system: &[u8], target: &[u8], table: &mut [Edge]) -> Answer {
    trace_or_refuse(system, target, table).unwrap_or_else(Answer::refused)
}

/// Does what trace promises, or gives the refusal.
fn trace_or_refuse(system: &[u8], target: &[u8], table: &[Edge]) -> Result<Answer, Refusal> {
    let system = read_system(system)?;
    let target = Word::freely_reduced(read_target_or_product(target)?);
    check_room_for_edges(table)?;
    let verdict = match traces(system.words(), &target) {
        true => MEMBER,
        false => NOT_A_MEMBER,
    };
    Ok(Answer {
        verdict,
        ..Answer::done()
    })
}

/// Checks that a table has room for the edges of every system, by rule 21.
fn check_room_for_edges(table: &[Edge]) -> Result<(), Refusal> {
    if table.len() < MOST_EDGES {
        return Err(Refusal::new(EDGE_TABLE_SHORT, 0));
    }
    Ok(())
}
