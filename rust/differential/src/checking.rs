//! The check of a finished packet beside the model.

use crate::run::{Compared, Run};
use crate::{damage, model, options};
use wispbundle::{Good, check};

pub fn compare(run: &mut Run) -> Compared {
    let mut packet = damage::built(&mut run.rng);
    if run.rng.flip() {
        options::put(&mut run.rng, &mut packet, true);
    }
    if !run.rng.once_in(4) {
        packet = damage::damaged(&mut run.rng, packet);
    }
    let answer = check(&packet);
    run.same("wb_check", answer, model::check(&packet))?;
    options::saw(run, "wb_check", &packet, answer.err());
    match answer {
        Ok(Good::Checked) => run.saw("checked: good"),
        Ok(Good::WithoutChecksum) => run.saw("checked: good without checksum"),
        Err(_) => {}
    }
    Ok(())
}
