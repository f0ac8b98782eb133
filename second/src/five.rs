//! The cases of all five calls, one after the other on one thrown set of inputs, so that faults
//! meet that no other family brings together. One family, which goes by seed.
//!
//!   five  seed 1 to 4000. The inputs are those that the generator of inputs for all five calls
//!         tells. The answer of condensing REG, as for condensing; then three letters, which stand
//!         together without a blank: of the check of SUM5 against REG, of asking REG the question
//!         at the item, and of asking SUM5 the question at the item; then the listing of the
//!         question from SUM5, as for listing.
//!
//! Numbers are decimal, words are parted by one blank, and a line feed ends every line.

use crate::families::BySeed;
use crate::five_generator::Inputs;
use crate::trial::Trial;

pub const FIVE: BySeed = BySeed {
    last: 4_000,
    line: five,
};

/// SUM5 is made of R, as R was made, and spoilt then; REG comes behind it.
fn five(trial: &mut Trial, seed: u64) {
    let (inputs, made, made_at) = Inputs::with_made(seed);
    trial.make(&made.write(), made_at);
    let item = inputs.item.0;
    let (register, summary) = (&inputs.register, &inputs.summary);
    trial.text(&format!("five {seed} "));
    trial.condense(register, inputs.level_and_caps, inputs.summary_room);
    trial.text(" ");
    trial.check(register, summary);
    trial.ask_register(register, &inputs.question, item..item + 1);
    trial.ask_summary(summary, &inputs.question, item..item + 1);
    trial.text(" ");
    trial.list(summary, &inputs.question, inputs.list_room);
    trial.end_line();
}
