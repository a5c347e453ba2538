//! Tables that send each index to another one, no two to the same.

/// The table that sends each entry back to its index.
pub fn inverse<T>(table: &[T]) -> Vec<T>
where
    T: Copy + TryFrom<usize>,
    usize: From<T>,
{
    let mut back = table.to_vec();
    for (index, &entry) in table.iter().enumerate() {
        let Ok(index) = T::try_from(index) else {
            panic!("an entry of the table cannot name index {index}");
        };
        back[usize::from(entry)] = index;
    }
    back
}

#[cfg(test)]
mod tests {
    use super::*;

    #[test]
    fn a_cycle_is_turned_round() {
        assert_eq!(inverse(&[1usize, 2, 3, 0]), [3, 0, 1, 2]);
        assert_eq!(inverse(&[2u8, 0, 1]), [1, 2, 0]);
    }
}
