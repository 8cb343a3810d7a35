//! Orders, listed by the first place where they differ: there the lower number goes ahead.

/// All orders of the numbers below `count`, in listing order.
pub fn orders(count: usize) -> Vec<Vec<usize>> {
    let mut all = vec![vec![]];
    for _ in 0..count {
        let longer = |order: &Vec<usize>| -> Vec<Vec<usize>> {
            (0..count).filter(|entry| !order.contains(entry)).map(|entry| [&order[..], &[entry]].concat()).collect()
        };
        all = all.iter().flat_map(longer).collect();
    }
    all
}
