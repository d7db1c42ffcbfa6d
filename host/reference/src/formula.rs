//! The formula table.

use crate::bytes::{records, u16_at};
use crate::{Refusal, refused, refused_at};

/// The bytes of a formula record.
pub const FORMULA: usize = 8;

pub const TRUE: u8 = 0;
pub const NOT: u8 = 1;
pub const AND: u8 = 2;
pub const STEP: u8 = 3;
pub const SOME: u8 = 4;
pub const ALL: u8 = 5;

#[derive(Clone, Copy, Debug, Default, PartialEq, Eq)]
pub struct Formula {
    pub operator: u8,
    pub left: u16,
    pub right: u16,
    pub action: u16,
}

impl Formula {
    fn read(record: &[u8; FORMULA]) -> Formula {
        Formula {
            operator: record[0],
            left: u16_at(record, 2),
            right: u16_at(record, 4),
            action: u16_at(record, 6),
        }
    }

    /// Whether the operator has a left operand, a right one and an action; nothing for an
    /// unknown operator.
    fn has(&self) -> Option<(bool, bool, bool)> {
        Some(match self.operator {
            TRUE => (false, false, false),
            NOT => (true, false, false),
            STEP => (true, false, true),
            AND | SOME | ALL => (true, true, false),
            _ => return None,
        })
    }

    /// The operands that the operator has, left and right.
    pub fn operands(&self) -> [Option<u16>; 2] {
        let (left, right, _) = self.has().unwrap_or_default();
        [left.then_some(self.left), right.then_some(self.right)]
    }

    /// Whether the fields suit the operator at this record number.
    fn fits(&self, number: usize) -> bool {
        let Some((left, right, action)) = self.has() else {
            return false;
        };
        let operand = |has: bool, field: u16| match has {
            true => usize::from(field) < number,
            false => field == 0,
        };
        operand(left, self.left) && operand(right, self.right) && (action || self.action == 0)
    }
}

/// The formulas of a table, or refusal 4 or 5.
pub fn decode(table: &[u8]) -> Result<Vec<Formula>, Refusal> {
    let Some(records) = records::<FORMULA>(table, 1..=256) else {
        return refused(4);
    };
    let mut formulas = Vec::with_capacity(records.len());
    for (number, record) in records.iter().enumerate() {
        let formula = Formula::read(record);
        if record[1] != 0 || !formula.fits(number) {
            return refused_at(5, number);
        }
        formulas.push(formula);
    }
    Ok(formulas)
}
