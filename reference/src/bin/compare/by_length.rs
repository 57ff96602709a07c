//! What the requirements say of an answer by the length of the system alone, with the numbers as
//! they stand there and apart from both versions, so that two wrong alike are found.

use subgroups_reference::answers::REFUSED;
use subgroups_reference::Answer;

/// What a system that is lent first consists of.
#[derive(Clone, Copy)]
pub enum Form {
    /// Records of letters.
    Letters,
    /// Records of numbers.
    Numbers,
}

impl Form {
    /// The most bytes of a system and the bytes of a record.
    fn sizes(self) -> (usize, usize) {
        match self {
            Form::Letters => (1024, 64),
            Form::Numbers => (2048, 128),
        }
    }

    /// The refusals that every system of this form can get.
    pub fn refusals(self) -> &'static [u64] {
        match self {
            Form::Letters => &[1, 2, 3, 4, 5],
            Form::Numbers => &[1, 2, 19],
        }
    }

    /// The refusal that a system of this length gets whatever its bytes are, if it gets one.
    pub fn number_by_length(self, length: usize) -> Option<u64> {
        let (longest, record) = self.sizes();
        if length > longest {
            Some(2)
        } else if !length.is_multiple_of(record) {
            Some(1)
        } else {
            None
        }
    }

    /// Checks an answer to a call that was lent a system of this length.
    pub fn check_by_length(self, length: usize, answer: Answer) -> Result<(), &'static str> {
        let agrees = match self.number_by_length(length) {
            Some(number) => answer.numbers() == [REFUSED, number, 0, 0, 0, 0, 0],
            None => ![1, 2].contains(&answer.number),
        };
        if agrees {
            Ok(())
        } else {
            Err("the length of the system demands another answer")
        }
    }

    /// The answer that a system of this length must get, in words.
    pub fn demanded(self, length: usize) -> String {
        match self.number_by_length(length) {
            Some(number) => format!("refused {number} at 0"),
            None => "neither refused 1 nor refused 2".to_string(),
        }
    }
}
