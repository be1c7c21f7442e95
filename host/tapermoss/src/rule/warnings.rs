//! What a person must know before the rule is used: it stands first in the text, and in JSON beside flags that say the same.

use super::report::several;
use super::table::Wrong;
use crate::hashing::written;
use crate::learn::Learnt;

/// All warnings, those for which a person must decide first.
pub fn warnings(learnt: &Learnt, wrong: &[Wrong]) -> Vec<String> {
    let mut told = for_a_person(learnt);
    if most_disagree(learnt, wrong) {
        told.push("most entries do not agree: they may follow no rule of this form".to_string());
    }
    told.extend(not_confirmed(learnt, wrong));
    told
}

/// What a person must decide: whether directories are as they look, or which rule it is.
pub fn for_a_person(learnt: &Learnt) -> Vec<String> {
    only_block_0(learnt).into_iter().chain(rivalled(learnt)).collect()
}

pub fn most_disagree(learnt: &Learnt, wrong: &[Wrong]) -> bool {
    wrong.len() > learnt.agreeing
}

fn only_block_0(learnt: &Learnt) -> Option<String> {
    let which = match learnt.agreeing - learnt.in_block_0 {
        0 => "all entries that agree".to_string(),
        elsewhere => format!("all but {elsewhere} of the {} entries that agree", learnt.agreeing),
    };
    learnt.says_nothing().then(|| {
        format!(
            "{which} stand in blocks 0, 31, 62 and so on, where weights of 0 put every name: these directories have one block, \
             or all is in block 0; they say nothing of the rule, and it must not be used for others"
        )
    })
}

fn rivalled(learnt: &Learnt) -> Option<String> {
    let more = match learnt.rivals.len() {
        0 | 1 => String::new(),
        all => format!(", and with {} found", several(all - 1, "more that was", "more that were")),
    };
    let rival = |rival| {
        format!(
            "as many entries agree with another rule as with this one: {}{more}",
            written(rival)
        )
    };
    learnt.rivals.first().map(rival)
}

fn not_confirmed(learnt: &Learnt, wrong: &[Wrong]) -> Option<String> {
    let Learnt { confirming, wanted, .. } = *learnt;
    let told = match confirming {
        0 => "with so few entries any names in any blocks would fit as well".to_string(),
        more => {
            let more = several(more, "further entry agrees", "further entries agree");
            let besides = match wrong.len() {
                0 => String::new(),
                others => format!(" where {} not", several(others, "does", "do")),
            };
            format!("only {more} that could have failed, and {wanted} are wanted{besides}")
        }
    };
    (confirming < wanted).then(|| format!("not confirmed: {told}"))
}
