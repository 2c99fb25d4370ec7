//! Plan records as words, and damage to them.

use crate::{
    model::{self, ORDER_LIMIT},
    random::Random,
};
use mulzhegat::{Pass, Plan};

/// The words of a plan record: rows, columns and side, then for each pass its order, gain and coefficients.
pub const RECORD_WORDS: usize = 3 + 4 * (2 + ORDER_LIMIT);

/// The words of a plan record, one for each field.
pub fn fields(plan: &Plan) -> [i64; RECORD_WORDS] {
    let mut fields = vec![plan.rows, plan.columns, plan.side];
    for pass in &plan.passes {
        fields.extend([pass.order, pass.gain]);
        fields.extend(pass.coefficients);
    }
    fields.try_into().expect("a record has so many words")
}

/// The plan record that has these words.
pub fn plan_of(fields: &[i64; RECORD_WORDS]) -> Plan {
    let width = 2 + ORDER_LIMIT;
    let mut passes = [Pass::default(); 4];
    for (number, pass) in passes.iter_mut().enumerate() {
        let words = &fields[3 + number * width..][..width];
        (pass.order, pass.gain) = (words[0], words[1]);
        pass.coefficients.copy_from_slice(&words[2..]);
    }
    Plan { rows: fields[0], columns: fields[1], side: fields[2], passes }
}

/// Words for one field of a record: just inside and just outside each range, and numbers that are right only if a
/// field is cut to fewer bits.
pub fn damages(field: i64) -> Vec<i64> {
    let most = ORDER_LIMIT as i64;
    let mut words = vec![i64::MIN, i64::MIN + 1, -1, 0, 1, most, most + 1, 32, 33, 4096, 4097, i64::MAX];
    words.extend([-134217729, -134217728, 134217727, 134217728]);
    words.extend([4, 8, 16, 28, 32, 40, 63].map(|bits| field.wrapping_add(1 << bits)));
    words.extend([field.wrapping_neg(), field.wrapping_sub(1 << 32), !field]);
    words
}

/// A record that breaks a rule.
pub fn broken_record(random: &mut Random, plan: &Plan) -> Plan {
    loop {
        let mut words = fields(plan);
        let field = random.below(words.len());
        words[field] = random.pick(&damages(words[field]));
        let broken = plan_of(&words);
        if !model::keeps_rules(&broken) {
            return broken;
        }
    }
}

/// All 6,561 choices of four orders.
pub fn all_orders() -> impl Iterator<Item = [usize; 4]> {
    let limit = ORDER_LIMIT + 1;
    (0..limit.pow(4)).map(move |number| [0, 1, 2, 3].map(|pass| number / limit.pow(pass) % limit))
}
