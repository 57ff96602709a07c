//! The folded graph of Stallings: each word is a loop at a base point, and edges with one letter
//! that leave or enter one point are folded together. It decides membership without any moves.

use crate::words::{inverse_letter, Word};

const LETTERS: usize = 52;
const NONE: u16 = u16::MAX;
const BASE: u16 = 0;

/// A graph whose edges carry letters; an edge stands at both its points, read forward and backward.
pub struct Graph {
    edges: Vec<[u16; LETTERS]>,
    folded_into: Vec<u16>,
    waiting: Vec<(u16, u16)>,
}

/// The number of a letter among a to z and A to Z.
fn number(letter: u8) -> usize {
    if letter.is_ascii_lowercase() {
        usize::from(letter - b'a')
    } else {
        26 + usize::from(letter - b'A')
    }
}

impl Graph {
    /// The folded graph of freely reduced words, empty ones passed over.
    pub fn folded(words: &[Word]) -> Graph {
        let mut graph = Graph {
            edges: Vec::new(),
            folded_into: Vec::new(),
            waiting: Vec::new(),
        };
        graph.new_point();
        for word in words {
            graph.add_loop(word.letters());
        }
        graph
    }

    /// Adds a point without edges.
    fn new_point(&mut self) -> u16 {
        let point = self.edges.len() as u16;
        self.edges.push([NONE; LETTERS]);
        self.folded_into.push(point);
        point
    }

    /// The point that this one has been folded into, or the point itself.
    fn find(&self, mut point: u16) -> u16 {
        while self.folded_into[usize::from(point)] != point {
            point = self.folded_into[usize::from(point)];
        }
        point
    }

    /// Adds a loop at the base point and folds.
    fn add_loop(&mut self, letters: &[u8]) {
        let Some((&last, before)) = letters.split_last() else {
            return;
        };
        let mut point = BASE;
        for &letter in before {
            let next = self.new_point();
            self.add_edge(point, letter, next);
            point = next;
        }
        self.add_edge(point, last, BASE);
        self.fold();
    }

    /// Adds an edge, which stands at both its points.
    fn add_edge(&mut self, from: u16, letter: u8, to: u16) {
        let (from, to) = (self.find(from), self.find(to));
        self.add_end(from, number(letter), to);
        self.add_end(to, number(inverse_letter(letter)), from);
    }

    /// Notes an edge at one point, or that two points must be folded since it has such an edge.
    fn add_end(&mut self, from: u16, letter: usize, to: u16) {
        let place = &mut self.edges[usize::from(from)][letter];
        if *place == NONE {
            *place = to;
        } else {
            self.waiting.push((*place, to));
        }
    }

    /// Folds points together until none are waiting.
    fn fold(&mut self) {
        while let Some((one, two)) = self.waiting.pop() {
            let (one, two) = (self.find(one), self.find(two));
            if one == two {
                continue;
            }
            self.folded_into[usize::from(two)] = one;
            let edges = std::mem::replace(&mut self.edges[usize::from(two)], [NONE; LETTERS]);
            for (letter, to) in edges.into_iter().enumerate() {
                if to != NONE {
                    self.add_end(one, letter, to);
                }
            }
        }
    }

    /// The base point, or the point that it has been folded into.
    pub fn base(&self) -> u16 {
        self.find(BASE)
    }

    /// The point to which the edge with this letter leads from a point, if there is one.
    pub fn next(&self, point: u16, letter: u8) -> Option<u16> {
        let to = self.edges[usize::from(point)][number(letter)];
        (to != NONE).then(|| self.find(to))
    }

    /// Whether the letters trace a path from the base point back to it.
    pub fn traces_loop(&self, letters: &[u8]) -> bool {
        let mut path = letters.iter();
        let end = path.try_fold(self.base(), |point, &letter| self.next(point, letter));
        end == Some(self.base())
    }

    /// The rank of the subgroup: edges less points, plus 1.
    pub fn rank(&self) -> usize {
        let mut points = 0;
        let mut edges = 0;
        for (point, ends) in self.edges.iter().enumerate() {
            if usize::from(self.folded_into[point]) == point {
                points += 1;
                edges += ends[..26].iter().filter(|&&to| to != NONE).count();
            }
        }
        edges + 1 - points
    }
}

/// Whether the target lies in the subgroup that the words generate, by tracing the folded graph.
pub fn traces(words: &[Word], target: &Word) -> bool {
    Graph::folded(words).traces_loop(target.letters())
}

#[cfg(test)]
mod tests {
    use super::*;

    /// The words given as texts.
    fn words(texts: &[&str]) -> Vec<Word> {
        let reduced = |text: &&str| Word::freely_reduced(text.as_bytes());
        texts.iter().map(reduced).collect()
    }

    /// Small subgroups, their ranks and some words in and out of them.
    #[test]
    fn small_subgroups() {
        let graph = Graph::folded(&words(&["aa", "aaa"]));
        assert_eq!(graph.rank(), 1);
        assert!(graph.traces_loop(b"a"));
        let graph = Graph::folded(&words(&["ab"]));
        assert_eq!(graph.rank(), 1);
        assert!(graph.traces_loop(b"BABA"));
        assert!(!graph.traces_loop(b"ba"));
        let graph = Graph::folded(&[]);
        assert_eq!(graph.rank(), 0);
        assert!(graph.traces_loop(b""));
        assert!(!graph.traces_loop(b"a"));
        assert_eq!(Graph::folded(&words(&["aa", "b", "abA"])).rank(), 3);
    }
}
