//! How often each sort of something came, by the names of the sorts.

#![forbid(unsafe_code)]

use super::meter::Meter;

/// Counts a failure for a sort that never came.
pub fn all(meter: &mut Meter, of: &str, sorts: &[&str], times: &[u64]) {
    for (sort, times) in sorts.iter().zip(times) {
        meter.case(format!("{of}: {sort}"));
        meter.count(*times > 0, || "  was never reached".to_string());
    }
}

pub fn text(of: &str, sorts: &[&str], times: &[u64]) -> String {
    let list: Vec<String> = sorts
        .iter()
        .zip(times)
        .map(|(sort, times)| format!("{sort} {times}"))
        .collect();
    format!("{of} {}", list.join(", "))
}
