//! What a case of the longest walks is: a map, and what is due on it by the paper.

use crate::inputs::longest::maps::gazetteer;
use crate::rules::asked::Asked;
use crate::rules::limits::ANSWER_WORDS;
use crate::rules::refusal::Number;
use crate::rules::sheet::Sheet;

pub struct Case {
    pub name: &'static str,
    /// A sheet without its offices.
    pub map: Sheet,
    /// What the check gives.
    pub check: Number,
    pub questions: Vec<Question>,
}

/// A valid question over these offices.
#[derive(Clone)]
pub struct Question {
    pub offices: Vec<u32>,
    pub asked: Asked,
    pub due: Due,
}

/// The list and the total of refinements, or the refusal.
pub type Due = Result<(Vec<Record>, u64), Number>;

/// Number, low end, high end, stages, gazetteer number.
pub type Record = [u64; ANSWER_WORDS];

impl Case {
    pub fn sheet(&self, question: &Question) -> Sheet {
        Sheet { offices: question.offices.clone(), ..self.map.clone() }
    }
}

impl Question {
    /// The same the other way: from the offices to q.
    pub fn inward(self) -> Question {
        Question { asked: Asked::inward(self.asked.q, self.asked.k), ..self }
    }
}

/// A question for as many offices as this list has; what each place's gazetteer number is, the maps say.
pub fn listed(offices: &[u32], q: u32, list: &[[u64; 4]], total: u64) -> Question {
    let whole = |&[number, low, high, stages]: &[u64; 4]| {
        [number, low, high, stages, u64::from(gazetteer(offices[number as usize]))]
    };
    let list: Vec<Record> = list.iter().map(whole).collect();
    Question { offices: offices.to_vec(), asked: Asked::outward(q, list.len() as u32), due: Ok((list, total)) }
}

pub fn refused(offices: &[u32], (q, k): (u32, u32), number: Number) -> Question {
    Question { offices: offices.to_vec(), asked: Asked::outward(q, k), due: Err(number) }
}
