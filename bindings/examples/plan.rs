//! Plans the first sheet of the README and prints each unit's slot and window, or the ring.
//!
//!     cargo run --release --example plan

fn main() {
    let mut sheet = tugrokt::Sheet::new(4);
    sheet.add_unit(1, 1, 2);
    sheet.add_unit(2, 1, 4);
    for from in 1..=3 {
        sheet.add_rule(from, from + 1, 1, 1);
    }
    match sheet.plan() {
        Err(refusal) => println!("{refusal}"),
        Ok(tugrokt::Answer::None { ring }) => println!("no plan: {ring:?}"),
        Ok(tugrokt::Answer::Plan(plan)) => {
            for (i, slot) in plan.slot.iter().enumerate() {
                let place = if plan.is_carried(i) { "carried".to_string() } else { format!("slot {slot}") };
                println!("unit {}: {place}, from {} to {}", sheet.loader[i], plan.earliest[i], plan.latest[i]);
            }
            for slot in 1..=sheet.span {
                println!("slot {slot}: {:?}", plan.range(slot, slot));
            }
        }
    }
}
