//! The table of differences under fixed outcomes: limits by the horizon and the constraints, lowered over one point
//! after the other.

use super::constraints::{limit_all, Limits, BIAS};
use super::judge::judge;
use super::masks::{first, subset};
use super::plan::{Plan, Refusal, MASK};

/// At row X, column Y the largest value of time of Y minus time of X; rows and columns of unused points are zero.
pub type Table = [[i16; 8]; 8];

/// What the horizon and each constraint ask by themselves.
fn first_limits(plan: &Plan, values: u8) -> Limits {
    let mut limits = [[BIAS + u32::from(plan.horizon); 8]; 8];
    (0..8).for_each(|x| limits[x][x] = BIAS);
    limit_all(plan, &mut limits, values);
    limits
}

/// The limits of a row lowered to what two limits over point k ask together.
fn row_over(limits: &Limits, k: usize, x: usize) -> [u32; 8] {
    std::array::from_fn(|y| limits[x][y].min(limits[x][k] + limits[k][y] - BIAS))
}

/// Every row lowered over point k. A pass at most doubles the largest size; 999 * 2^8 is below the bias.
fn lowered_over(limits: Limits, k: usize) -> Limits {
    std::array::from_fn(|x| row_over(&limits, k, x))
}

/// A row without the bias; zeros past the points.
fn shown_row(limits: &[u32; 8], points: usize) -> [i16; 8] {
    std::array::from_fn(|y| if y < points { limits[y].wrapping_sub(BIAS) as i16 } else { 0 })
}

/// All rows without the bias; zeros past the points.
fn shown(limits: &Limits, points: usize) -> Table {
    std::array::from_fn(|x| if x < points { shown_row(&limits[x], points) } else { [0; 8] })
}

/// The table of a plan that was judged, unless some point would have to come before itself.
fn decide(plan: &Plan, values: u8) -> Option<Table> {
    let points = plan.points as usize;
    let limits = (0..points).fold(first_limits(plan, values), lowered_over);
    (0..points).all(|x| limits[x][x] >= BIAS).then(|| shown(&limits, points))
}

/// The differences where the letters of the mask `values` are true and the others false, or none where there is no
/// schedule; or 2, 3, 4 (the plan), 8 (a letter that the plan lacks).
pub fn differences(plan: &Plan, values: u8) -> Result<Option<Table>, Refusal> {
    judge(plan)?;
    if !subset(values, first(plan.letters)) {
        return Err(MASK);
    }
    Ok(decide(plan, values))
}
