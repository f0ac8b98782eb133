//! The proved library beside plain Rust, in one process, on the same inputs: `bench/run`. First the two are held against each
//! other, then they take turns.

mod agreement;
mod calls;
mod cells;
mod damage;
mod dice;
mod plain;
mod proved;
mod questions;
mod shapes;
mod tables;
mod timing;

use agreement::{Agreement, ROOM};
use cells::Inputs;
use std::time::Duration;
use timing::Times;

/// How long a cell is timed.
const TIME: Duration = Duration::from_millis(1_200);

fn main() {
    let shapes = shapes::all();
    let mut agreement = Agreement::reached(&shapes);
    let inputs: Vec<Inputs> = shapes
        .iter()
        .map(|shape| Inputs::of(shape, &mut agreement))
        .collect();
    for call in inputs.iter().flat_map(|inputs| inputs.cells()).flatten() {
        agreement.hold(&call, ROOM);
    }
    println!("the two agree on {} calls:", agreement.calls);
    println!(
        "yes {}, no {}, refusals 1 to 9: {:?}",
        agreement.yes,
        agreement.no,
        &agreement.refusals[1..]
    );
    let timed = |inputs: &Inputs| {
        inputs
            .cells()
            .iter()
            .map(|calls| Times::of(calls, TIME))
            .collect()
    };
    let rows: Vec<_> = shapes
        .iter()
        .zip(&inputs)
        .map(|(shape, inputs)| (shape.name, timed(inputs)))
        .collect();
    tables::print(&rows);
}
