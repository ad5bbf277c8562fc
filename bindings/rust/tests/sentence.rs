//! Factoring and solving word for word after document 02's sentences, on a table of all pairs of positions: slow, and written
//! apart from both the library and plain C. A subtraction at a pair of two different positions without a slot ends the program.

use crate::factor_calls::Factoring;
use plain::{Factored, FileParts};

/// The entries of a matrix by column and row, none where a pair has no slot.
struct Table {
    n: usize,
    entries: Vec<Option<f64>>,
}

impl Table {
    fn of(plan: &FileParts, diagonal: &[f64], values: &[f64]) -> Table {
        let mut table = Table { n: plan.n, entries: vec![None; plan.n * plan.n] };
        for j in 0..plan.n {
            table.entries[j * plan.n + j] = Some(diagonal[j]);
            for k in plan.column_starts[j] as usize..plan.column_starts[j + 1] as usize {
                table.entries[j * plan.n + plan.rows[k] as usize] = Some(values[k]);
            }
        }
        table
    }

    fn at(&mut self, column: usize, row: usize) -> &mut f64 {
        self.entries[column * self.n + row].as_mut().expect("a pair without a slot")
    }

    /// The column's rows, in ascending order.
    fn rows(&self, column: usize) -> Vec<usize> {
        (column + 1..self.n).filter(|row| self.entries[column * self.n + row].is_some()).collect()
    }

    /// What stands in the two lists. Slots are numbered column by column, in each by ascending rows.
    fn lists(&mut self) -> (Vec<f64>, Vec<f64>) {
        let diagonal = (0..self.n).map(|j| *self.at(j, j)).collect();
        let slots: Vec<_> = (0..self.n).flat_map(|j| self.rows(j).into_iter().map(move |i| (j, i))).collect();
        (diagonal, slots.into_iter().map(|(j, i)| *self.at(j, i)).collect())
    }

    /// Column j. Gives its pivot and the divisions and multiplications done.
    fn eliminate(&mut self, j: usize) -> Result<(f64, u64), u32> {
        let d = *self.at(j, j);
        if !d.is_finite() || d <= 0.0 {
            return Err(31);
        }
        let rows = self.rows(j);
        let v: Vec<f64> = rows.iter().map(|i| *self.at(j, *i)).collect();
        let l: Vec<f64> = v.iter().map(|value| value / d).collect();
        let mut operations = l.len() as u64;
        for (i, value) in rows.iter().zip(&l) {
            *self.at(j, *i) = *value;
        }
        for a in 0..rows.len() {
            for b in a..rows.len() {
                let product = l[b] * v[a];
                let entry = self.at(rows[a], rows[b]);
                *entry = *entry - product;
                operations += 1;
            }
        }
        Ok((d, operations))
    }
}

/// Factors by a plan that passes every check before 31.
pub fn by_sentence(plan: &FileParts, diagonal: &[f64], values: &[f64]) -> Factoring {
    let mut table = Table::of(plan, diagonal, values);
    let columns: Result<Vec<(f64, u64)>, u32> = (0..plan.n).map(|j| table.eliminate(j)).collect();
    let answer = columns.map(|columns| Factored {
        smallest: columns.iter().map(|column| column.0).fold(f64::INFINITY, f64::min),
        largest: columns.iter().map(|column| column.0).fold(0.0, f64::max),
        operations: columns.iter().map(|column| column.1).sum(),
    });
    let (diagonal, values) = table.lists();
    Factoring { answer, diagonal, values }
}

/// Solves by a plan and its factor that pass every check before 31. Gives the solution, or 31.
pub fn solved_by_sentence(plan: &FileParts, diagonal: &[f64], values: &[f64], vector: &[f64]) -> Result<Vec<f64>, u32> {
    let mut table = Table::of(plan, diagonal, values);
    let mut entries = vector.to_vec();
    if (0..plan.n).any(|j| !table.at(j, j).is_finite() || *table.at(j, j) <= 0.0) {
        return Err(31);
    }
    for column in 0..plan.n {
        for row in table.rows(column) {
            let product = *table.at(column, row) * entries[column];
            entries[row] = entries[row] - product;
        }
    }
    for place in 0..plan.n {
        entries[place] = entries[place] / *table.at(place, place);
    }
    for column in (0..plan.n).rev() {
        for row in table.rows(column) {
            let product = *table.at(column, row) * entries[row];
            entries[column] = entries[column] - product;
        }
    }
    Ok(entries)
}
