//! Reference check of a load plan for inbound trailers: plain structs, rule after rule.

pub mod case_folder;
pub mod cost;
pub mod generator;
pub mod item_rules;
pub mod loading;
pub mod model;
pub mod placement;
pub mod reader;
pub mod sentence;
pub mod stack_rules;
pub mod table;
pub mod tally;
pub mod text;
pub mod verdict;
pub mod weights;
pub mod writer;

use loading::Loading;
use model::{Instance, Plan};
use text::{BadLine, Fault};
pub use verdict::Answer;
use verdict::Refusal;

/// Longest file that is read.
pub const MOST_BYTES: usize = 65_535;

/// Checks the plan against the instance and fills the working table.
pub fn check(instance: &[u8], plan: &[u8], table: &mut [u32]) -> Answer {
    match judge(instance, plan, table) {
        Ok(answer) => answer,
        Err(refusal) => refusal.answer(),
    }
}

/// The bad line of an answer, without its end byte; else the empty part at the instance's end.
pub fn bad_line<'a>(instance: &'a [u8], plan: &'a [u8], number: u32, line: u32) -> &'a [u8] {
    let found = match number {
        verdict::INSTANCE_FORM | verdict::INSTANCE_RANGE => text::nth_line(instance, line),
        verdict::PLAN_FORM | verdict::PLAN_RANGE => text::nth_line(plan, line),
        _ => None,
    };
    found.unwrap_or(&instance[instance.len()..])
}

fn judge(instance: &[u8], plan: &[u8], table: &mut [u32]) -> Result<Answer, Refusal> {
    if table.len() < table::NAMED_WORDS {
        verdict::refuse(verdict::SHORT_TABLE, [0; 3])?;
    }
    table[..table::NAMED_WORDS].fill(0);
    let (instance, plan) = read(instance, plan)?;
    table::fill(table, &instance, &plan);

    let loading = Loading::new(&instance, &plan);
    item_rules::check(&loading)?;
    stack_rules::check(&loading)?;
    placement::check(&loading)?;
    weights::check(&loading)?;
    Ok(Answer {
        number: verdict::ACCEPTED,
        first: 0,
        second: 0,
        third: 0,
        cost: cost::total(&loading),
        trucks: loading.used.len() as u32,
    })
}

/// Reads both files; an instance whose codes clash is refused before the plan is read.
fn read(instance: &[u8], plan: &[u8]) -> Result<(Instance, Plan), Refusal> {
    if instance.len() > MOST_BYTES {
        verdict::refuse(verdict::OVERLONG_INSTANCE, [0; 3])?;
    }
    if plan.len() > MOST_BYTES {
        verdict::refuse(verdict::OVERLONG_PLAN, [0; 3])?;
    }
    let instance = reader::read_instance(instance)
        .map_err(|bad| bad_file(bad, verdict::INSTANCE_FORM, verdict::INSTANCE_RANGE))?;
    item_rules::codes_agree(&instance)?;
    let plan = reader::read_plan(plan, instance.items.len(), instance.trucks.len())
        .map_err(|bad| bad_file(bad, verdict::PLAN_FORM, verdict::PLAN_RANGE))?;
    Ok((instance, plan))
}

fn bad_file(bad: BadLine, form: u32, range: u32) -> Refusal {
    let number = match bad.fault {
        Fault::Form => form,
        Fault::Range => range,
    };
    Refusal {
        number,
        places: [bad.line, 0, 0],
    }
}
