//! The call reduce: shortenings and half-end moves in their fixed order, until neither applies.
//! The search is the plain reading of the rules: it forms every product and every half anew for
//! every move and remembers nothing.

use crate::answers::{Answer, REFUSED};
use crate::bound::most_moves_of;
use crate::logs::{LogRecord, Rule, LOG_RECORD};
use crate::moves::{Form, Move};
use crate::program::MOVES_IN_LOG;
use crate::records::{check_room_for_words, read_system, System};
use crate::refusals::{Refusal, LOG_BUFFER_SHORT};
use crate::words::Word;

/// The slots that are not blank, which alone take part.
fn slots(words: &[Word]) -> impl Iterator<Item = usize> + '_ {
    (0..words.len()).filter(|&slot| !words[slot].is_empty())
}

/// The slots that are not blank, except one.
fn other_slots(words: &[Word], slot: usize) -> impl Iterator<Item = usize> + '_ {
    slots(words).filter(move |&other| other != slot)
}

/// The first move that makes a word strictly shorter, by changed slot, other slot and form.
pub fn first_shortening(words: &[Word]) -> Option<Move> {
    for changed in slots(words) {
        for other in other_slots(words, changed) {
            for form in Form::ALL {
                let product = form.product(&words[changed], &words[other]);
                if product.is_some_and(|product| product.len() < words[changed].len()) {
                    return Some(Move {
                        changed,
                        form,
                        other,
                    });
                }
            }
        }
    }
    None
}

/// Whether another slot's word or its inverse begins with these letters.
fn begins_another(words: &[Word], slot: usize, beginning: &Word) -> bool {
    other_slots(words, slot).any(|other| {
        words[other].begins_with(beginning) || words[other].inverse().begins_with(beginning)
    })
}

/// Whether a slot's word qualifies for a half-end move.
fn qualifies(words: &[Word], slot: usize) -> bool {
    words[slot].halves().is_some_and(|(first, second)| {
        begins_another(words, slot, &first) && begins_another(words, slot, &second.inverse())
    })
}

/// The half-end move of a system in which nothing shortens, if a word qualifies.
pub fn half_end_move(words: &[Word]) -> Option<Move> {
    let other = slots(words)
        .filter(|&slot| qualifies(words, slot))
        .min_by_key(|&slot| (words[slot].len(), slot))?;
    let (_, second_half) = words[other].halves()?;
    for changed in other_slots(words, other) {
        let form = if words[changed].ends_with(&second_half) {
            Form::InverseAfter
        } else if words[changed].begins_with(&second_half.inverse()) {
            Form::WordBefore
        } else {
            continue;
        };
        return Some(Move {
            changed,
            form,
            other,
        });
    }
    None
}

/// The next move of the rules with its rule, if one applies: a half-end move only where nothing shortens.
pub fn next_move(words: &[Word]) -> Option<(Rule, Move)> {
    if let Some(step) = first_shortening(words) {
        return Some((Rule::Shortening, step));
    }
    half_end_move(words).map(|step| (Rule::HalfEnd, step))
}

/// Makes the moves that a search finds until it finds none, writes them into the log, and gives the
/// answer that tells of it.
pub fn reduce_system(
    mut next_move: impl FnMut(&[Word]) -> Option<(Rule, Move)>,
    system: &mut System,
    log: &mut [u8],
) -> Result<Answer, Refusal> {
    let mut rooms = log.chunks_exact_mut(LOG_RECORD);
    let mut moves = 0;
    while let Some((rule, step)) = next_move(system.words()) {
        let room = rooms.next();
        let room = room.ok_or(Refusal::new(LOG_BUFFER_SHORT, 0))?;
        let fits = step.make(system.words_mut());
        assert!(fits, "a move of the rules makes no word longer");
        let length = system.words()[step.changed].len();
        room.copy_from_slice(&LogRecord { step, rule, length }.bytes());
        moves += 1;
    }
    Ok(Answer {
        moves,
        rank: system.rank() as u64,
        independent: u64::from(system.rank() == system.count()),
        ..Answer::done()
    })
}

/// Writes the reduced system into the buffer for words and the moves into the log.
pub fn reduce(system: &[u8], words: &mut [u8], log: &mut [u8]) -> Answer {
    reduce_by(next_move, system, words, log)
}

/// Does what reduce does, by the moves that a search finds.
pub fn reduce_by(
    next_move: impl FnMut(&[Word]) -> Option<(Rule, Move)>,
    system: &[u8],
    words: &mut [u8],
    log: &mut [u8],
) -> Answer {
    reduce_or_refuse(next_move, system, words, log).unwrap_or_else(Answer::refused)
}

/// Does what reduce promises, or gives the refusal.
fn reduce_or_refuse(
    next_move: impl FnMut(&[Word]) -> Option<(Rule, Move)>,
    system: &[u8],
    words: &mut [u8],
    log: &mut [u8],
) -> Result<Answer, Refusal> {
    let mut system = read_system(system)?;
    check_room_for_words(words, system.count())?;
    let answer = reduce_system(next_move, &mut system, log)?;
    system.write(words);
    Ok(answer)
}

/// What reduce makes of a system: its answer, the reduced system, and the log of its moves.
pub struct Reduction {
    pub answer: Answer,
    pub words: Vec<u8>,
    pub log: Vec<u8>,
}

/// What reduce makes of a system with room for everything; the words are blank if it is refused.
pub fn reduction(system: &[u8]) -> Reduction {
    let mut words = vec![0; system.len()];
    let mut log = vec![0; LOG_RECORD * MOVES_IN_LOG];
    let answer = reduce(system, &mut words, &mut log);
    assert_ne!(
        answer.number, LOG_BUFFER_SHORT,
        "there is room for all moves"
    );
    assert!(
        answer.verdict == REFUSED || answer.moves <= most_moves_of(system) as u64,
        "there are no more moves than the bound"
    );
    log.truncate(LOG_RECORD * answer.moves as usize);
    Reduction { answer, words, log }
}
