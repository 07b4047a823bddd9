//! M of demand 3: a table's longest hold time.
//!
//! Assumes: the table was accepted, so a record names lower ones.
//! Read so: the HoldTap records that a cell leads to count, others do not: no key can begin them. With them the
//! bound would be the same or larger.

use super::image::Parts;
use super::layout::HOLD_TAP;

/// The longest timeout in the trees that the cells name; 0 if they have no hold-tap.
pub fn longest(table: &Parts) -> u16 {
    let mut led_to = vec![false; table.records.len()];
    for &cell in &table.cells {
        led_to[usize::from(cell)] = true;
    }
    let mut longest = 0;
    for record in (0..table.records.len()).rev() {
        if led_to[record] {
            for &named in table.named(record) {
                led_to[usize::from(named)] = true;
            }
            if let [HOLD_TAP, timeout, _, _] = table.records[record] {
                longest = longest.max(timeout);
            }
        }
    }
    longest
}

#[cfg(test)]
mod tests {
    use super::*;
    use crate::paper::image::{check, Z};

    /// Z's hold-tap, alone, in a list of actions, and with no cell that leads to it.
    #[test]
    fn what_no_cell_leads_to_does_not_count() {
        let mut table = check(&Z).expect("Z is accepted");
        assert_eq!(longest(&table), 3);
        table.records.push([4, 0, 2, 0]);
        table.list = vec![1, 3];
        table.cells = vec![1, 4];
        assert_eq!(longest(&table), 3);
        table.cells = vec![1, 2];
        assert_eq!(longest(&table), 0);
    }
}
