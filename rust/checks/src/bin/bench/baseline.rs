//! Two serial programs in Rust that the library is measured against: a plain one, as one writes it, and a strong one.

use mulzhegat::{Plan, DOWN, LEFT, MAX_ORDER, RIGHT, UP};

/// A pass with its numbers as residues modulo 2^64.
#[derive(Clone, Copy)]
pub struct Filter {
    order: usize,
    gain: u64,
    coefficients: [u64; MAX_ORDER],
}

/// The four passes of a plan.
pub fn filters(plan: &Plan) -> [Filter; 4] {
    plan.passes.map(|pass| Filter {
        order: pass.order as usize,
        gain: pass.gain as u64,
        coefficients: pass.coefficients.map(|coefficient| coefficient as u64),
    })
}

/// The plain program: four whole-map passes, columns walked row by row, orders known at run time.
#[inline(never)]
pub fn plain(map: &[i32], output: &mut [u64], rows: usize, columns: usize, filters: &[Filter; 4]) {
    for at in 0..rows * columns {
        output[at] = map[at] as i64 as u64;
    }
    let filter = &filters[DOWN];
    for row in 0..rows {
        for column in 0..columns {
            let at = row * columns + column;
            let mut sum = filter.gain.wrapping_mul(output[at]);
            for back in 1..=filter.order.min(row) {
                sum = sum.wrapping_sub(filter.coefficients[back - 1].wrapping_mul(output[at - back * columns]));
            }
            output[at] = sum;
        }
    }
    let filter = &filters[UP];
    for row in (0..rows).rev() {
        for column in 0..columns {
            let at = row * columns + column;
            let mut sum = filter.gain.wrapping_mul(output[at]);
            for back in 1..=filter.order.min(rows - 1 - row) {
                sum = sum.wrapping_sub(filter.coefficients[back - 1].wrapping_mul(output[at + back * columns]));
            }
            output[at] = sum;
        }
    }
    let filter = &filters[RIGHT];
    for row in 0..rows {
        for column in 0..columns {
            let at = row * columns + column;
            let mut sum = filter.gain.wrapping_mul(output[at]);
            for back in 1..=filter.order.min(column) {
                sum = sum.wrapping_sub(filter.coefficients[back - 1].wrapping_mul(output[at - back]));
            }
            output[at] = sum;
        }
    }
    let filter = &filters[LEFT];
    for row in 0..rows {
        for column in (0..columns).rev() {
            let at = row * columns + column;
            let mut sum = filter.gain.wrapping_mul(output[at]);
            for back in 1..=filter.order.min(columns - 1 - column) {
                sum = sum.wrapping_sub(filter.coefficients[back - 1].wrapping_mul(output[at + back]));
            }
            output[at] = sum;
        }
    }
}

/// Calls a function that has the order as a constant.
macro_rules! with_constant_order {
    ($order:expr, $function:ident($($argument:expr),*)) => {
        match $order {
            0 => $function::<0>($($argument),*),
            1 => $function::<1>($($argument),*),
            2 => $function::<2>($($argument),*),
            3 => $function::<3>($($argument),*),
            4 => $function::<4>($($argument),*),
            5 => $function::<5>($($argument),*),
            6 => $function::<6>($($argument),*),
            7 => $function::<7>($($argument),*),
            _ => $function::<8>($($argument),*),
        }
    };
}

/// Rows filtered together by right and left.
const BAND: usize = 4;

/// Down on one row; `above` ends with the rows above it.
#[inline(never)]
fn down_row<const ORDER: usize>(heights: &[i32], above: &[u64], row: &mut [u64], filter: &Filter) {
    let columns = row.len();
    let heights = &heights[..columns];
    let earlier: [&[u64]; ORDER] = std::array::from_fn(|back| &above[above.len() - (back + 1) * columns..][..columns]);
    for column in 0..columns {
        let mut sum = filter.gain.wrapping_mul(heights[column] as i64 as u64);
        for back in (0..ORDER).rev() {
            sum = sum.wrapping_sub(filter.coefficients[back].wrapping_mul(earlier[back][column]));
        }
        row[column] = sum;
    }
}

/// Up on one row; `below` begins with the rows below it.
#[inline(never)]
fn up_row<const ORDER: usize>(row: &mut [u64], below: &[u64], filter: &Filter) {
    let columns = row.len();
    let earlier: [&[u64]; ORDER] = std::array::from_fn(|back| &below[back * columns..][..columns]);
    for column in 0..columns {
        let mut sum = filter.gain.wrapping_mul(row[column]);
        for back in (0..ORDER).rev() {
            sum = sum.wrapping_sub(filter.coefficients[back].wrapping_mul(earlier[back][column]));
        }
        row[column] = sum;
    }
}

/// Right, or left if `backward`, on `LINES` rows that stand one after the other, column by column over all of them.
#[inline(always)]
fn interleaved_rows<const ORDER: usize, const LINES: usize>(
    rows: [&mut [u64]; LINES],
    columns: usize,
    filter: &Filter,
    backward: bool,
) {
    let mut earlier = [[0u64; ORDER]; LINES];
    let rows = rows.map(|row| &mut row[..columns]);
    let mut one_column = |column: usize| {
        for line in 0..LINES {
            let mut sum = filter.gain.wrapping_mul(rows[line][column]);
            for back in (0..ORDER).rev() {
                sum = sum.wrapping_sub(filter.coefficients[back].wrapping_mul(earlier[line][back]));
            }
            for back in (1..ORDER).rev() {
                earlier[line][back] = earlier[line][back - 1];
            }
            if ORDER > 0 {
                earlier[line][0] = sum;
            }
            rows[line][column] = sum;
        }
    };
    if backward {
        (0..columns).rev().for_each(&mut one_column);
    } else {
        (0..columns).for_each(&mut one_column);
    }
}

#[inline(never)]
fn band<const ORDER: usize>(rows: &mut [u64], columns: usize, filter: &Filter, backward: bool) {
    if rows.len() == BAND * columns {
        let (first, rest) = rows.split_at_mut(columns);
        let (second, rest) = rest.split_at_mut(columns);
        let (third, fourth) = rest.split_at_mut(columns);
        interleaved_rows::<ORDER, BAND>([first, second, third, fourth], columns, filter, backward);
    } else {
        for row in rows.chunks_mut(columns) {
            interleaved_rows::<ORDER, 1>([row], columns, filter, backward);
        }
    }
}

/// Right and left on a band of rows; a pass that changes nothing is left out.
fn rows_both_ways(rows: &mut [u64], columns: usize, filters: &[Filter; 4]) {
    for (filter, backward) in [(&filters[RIGHT], false), (&filters[LEFT], true)] {
        if filter.order > 0 || filter.gain != 1 {
            with_constant_order!(filter.order, band(rows, columns, filter, backward));
        }
    }
}

/// The strong program: constant orders, the rows of a band interleaved, two sweeps through memory: down, then up with
/// right and left following on the rows that no later row of up reads.
#[inline(never)]
pub fn strong(map: &[i32], output: &mut [u64], rows: usize, columns: usize, filters: &[Filter; 4]) {
    let (down, up) = (&filters[DOWN], &filters[UP]);
    for row in 0..rows {
        let (above, rest) = output.split_at_mut(row * columns);
        let heights = &map[row * columns..][..columns];
        let order = down.order.min(row);
        with_constant_order!(order, down_row(heights, above, &mut rest[..columns], down));
    }
    // Rows from here on are through all passes.
    let mut finished = rows;
    for row in (0..rows).rev() {
        if up.order > 0 || up.gain != 1 {
            let (rest, below) = output.split_at_mut((row + 1) * columns);
            let order = up.order.min(rows - 1 - row);
            with_constant_order!(order, up_row(&mut rest[row * columns..], below, up));
        }
        if finished - row >= up.order + BAND {
            rows_both_ways(&mut output[(finished - BAND) * columns..finished * columns], columns, filters);
            finished -= BAND;
        }
    }
    while finished > 0 {
        let height = finished.min(BAND);
        rows_both_ways(&mut output[(finished - height) * columns..finished * columns], columns, filters);
        finished -= height;
    }
}
