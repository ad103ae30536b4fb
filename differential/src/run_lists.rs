//! What the runs of the entries on record lists share.

use differential::generate::Random;
use differential::generate_lists::damage_lists;
use differential::records::*;
use differential::steps::Lists;

/// Damages the lists, once in a while so that one ends inside a record.
pub fn damage(random: &mut Random, lists: &mut Lists) {
    damage_lists(random, lists);
    if random.once_in(4) {
        damage_lists(random, lists);
    }
    if random.once_in(50) {
        let list = if random.once_in(2) {
            &mut lists.first
        } else {
            &mut lists.second
        };
        list.extend(vec![0; 1 + random.below(WIDTH - 1)]);
    }
}

/// The input, for a message.
pub fn shown(lists: &Lists) -> String {
    let mut lines = format!("text {:?}", String::from_utf8_lossy(&lists.text));
    for (name, list) in [("first", &lists.first), ("second", &lists.second)] {
        lines += &format!("\n{name} list, {} bytes", list.len());
        for words in words_of(list).iter().take(400) {
            lines += &format!("\n  {words:016x?}");
        }
    }
    lines
}
