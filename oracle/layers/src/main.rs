//! Takes beds layer by layer (document 02, request 1) and compares what comes out with the whole call, bit for
//! bit, refused offers among the layers; then touches state and kept memory at random and compares every number
//! afterwards with a plain model.
//!
//! All is made with a fixed seed. Exit status 0: all agreed, enough was compared and each answer came up.

mod fed;
#[path = "../../fixtures/src/fenced.rs"]
mod fenced;
#[path = "../../compare/src/fields.rs"]
#[allow(dead_code)]
mod fields;
mod model;
#[path = "../../compare/src/random.rs"]
#[allow(dead_code)]
mod random;
mod touched;

use random::Random;
use std::collections::BTreeMap;
use std::process::ExitCode;

/// The largest magnitude that is let in, 2^124.
const CAP: f32 = f32::from_bits(0x7D80_0000);
const SEED: u64 = 0xBED0_0001;
/// What a run must reach: grids of each kind, and offers to touched states.
const GRIDS: u64 = 4_000;
const TOUCHED: u64 = 1_000_000;

/// How often each answer came up.
pub type Answers = BTreeMap<u32, u64>;

fn main() -> ExitCode {
    let mut random = Random::new(SEED);
    let mut answers = Answers::new();
    let mut layers = 0;
    for field in fields::FIELDS {
        let mut vertices = 0;
        for _ in 0..GRIDS {
            match fed::feed(&mut random, field, &mut answers) {
                Ok(fed) => {
                    vertices += fed.vertices;
                    layers += fed.layers;
                }
                Err(what) => {
                    println!("{}: {what}", field.name);
                    return ExitCode::FAILURE;
                }
            }
        }
        println!("{:<24} {GRIDS} grids, {vertices} vertices", field.name);
    }
    println!("{layers} layers agree with the whole calls; offers by answer: {answers:?}");
    let mut answers = Answers::new();
    let mut lent = touched::Lent::new();
    for _ in 0..TOUCHED {
        if let Err(what) = touched::offer(&mut random, &mut lent, &mut answers) {
            println!("touched: {what}");
            return ExitCode::FAILURE;
        }
    }
    println!("{TOUCHED} offers to touched states agree; by answer: {answers:?}");
    if (0..=8).all(|n| answers.contains_key(&n)) {
        println!("ALL AGREE");
        ExitCode::SUCCESS
    } else {
        println!("an answer never came up");
        ExitCode::FAILURE
    }
}
