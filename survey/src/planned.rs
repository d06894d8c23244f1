//! Whether a plan that was read is one, by the library; and where it is none, the edge that shows it, with the lines of the plan's file.

use crate::failure::Failure;
use crate::plan::Plan;
use bed::Witness;
use std::path::Path;

/// Asks the library whether the blocks are a plan of the whole.
pub fn held(place: &Path, plan: &Plan) -> Result<(), Failure> {
    let refused =
        |refusal: bed::PlanError| Failure::refused(place.display(), refusal.number(), refusal);
    if bed::check_plan(&plan.blocks, &plan.whole).map_err(refused)? {
        return Ok(());
    }
    let witness = bed::plan_witness(&plan.blocks, &plan.whole).map_err(refused)?;
    Err(Failure::NoPlan {
        place: place.display().to_string(),
        witness: witness.map_or(String::new(), |edge| in_words(&edge, &plan.lines)),
    })
}

/// The edge, and whose it is.
fn in_words(edge: &Witness, lines: &[usize]) -> String {
    let [x, y, z] = edge.at;
    let axis = ["x", "y", "z"][edge.axis];
    let owners = match (edge.first, edge.second) {
        (Some(first), Some(second)) => {
            format!("lines {} and {} both own it", lines[first], lines[second])
        }
        (Some(first), None) => format!("line {} owns it, and the whole does not", lines[first]),
        _ => "the whole owns it, and no line does".into(),
    };
    format!("edge along {axis} from ({x},{y},{z}): {owners}")
}

#[cfg(test)]
mod tests {
    use super::*;
    use crate::plan::of_text;

    fn said(text: &str) -> String {
        held(Path::new("a.plan"), &of_text(text))
            .unwrap_err()
            .to_string()
    }

    #[test]
    fn the_edge_is_named() {
        let whole = "0 0 0 12 7 9 xz\n";
        let lower = "0 0 0 10 7 9 z\n";
        assert_eq!(
            said(&format!(
                "{whole}# lower\n{lower}9 0 0 12 7 9 xz\n8 0 4 12 7 9 xz\n"
            )),
            "a.plan: no plan: edge along x from (8,1,5): lines 3 and 5 both own it"
        );
        assert_eq!(
            said(&format!("{whole}{lower}")),
            "a.plan: no plan: edge along x from (9,1,1): the whole owns it, and no line does"
        );
        assert_eq!(
            said(&format!("{whole}{lower}\n9 0 0 12 7 9 xyz\n")),
            "a.plan: no plan: edge along y from (10,6,1): line 4 owns it, and the whole does not"
        );
    }

    #[test]
    fn refused_alike() {
        assert!(said("0 0 0 3 3 3 -\n3 0 0 2 1 1 -\n").starts_with("a.plan: refused 42: "));
        let many = format!("0 0 0 3 3 3 -\n{}", "3 0 0 2 1 1 -\n".repeat(201));
        assert!(said(&many).starts_with("a.plan: refused 41: "));
    }
}
