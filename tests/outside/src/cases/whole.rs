// Build the whole table, with each argument hostile now and then.

use super::arguments::*;
use super::Check;
use crate::call::Call;
use crate::paper;
use crate::rng::Rng;

pub fn case(rng: &mut Rng, check: &mut Check) -> Result<(), String> {
    let most = rng.pick(&[2, 6, 48, 120, 120, 384]);
    let mut fields = right_fields(rng, most);
    let measures = fields.measures().expect("right fields are accepted");
    let mut table = rng.bytes(paper::bytes_of(measures.stacks));
    let mut logs = rng.words(measures.log_numbers());
    let mut list = rng.bytes(measures.list_bytes_of(0));
    if rng.chance(10) {
        wrong_length(rng, &mut table);
    }
    if rng.chance(10) {
        wrong_length(rng, &mut logs);
    }
    if rng.chance(10) {
        wrong_length(rng, &mut list);
    }
    if rng.chance(8) {
        (fields.kind, fields.n) = any_kind_and_n(rng);
    }
    if rng.chance(8) {
        fields.wanted = any_stack(rng, fields.kind, fields.n);
    }
    if rng.chance(8) {
        fields.groups = damaged_groups(rng, fields.kind, fields.n);
    }
    if rng.chance(8) {
        fields.size = wrong_size(rng, measures.stacks);
    }
    if rng.chance(8) {
        fields.room = wrong_room(rng);
    }
    check(Call::Build { fields, table, logs, list })?;
    Ok(())
}
