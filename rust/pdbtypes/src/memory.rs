//! Memory. What grows by the input is asked for: where there is none, a command ends with a line and a status. 19 says so, here as in the library.
use pdb_types::{Error, Result};

/// What a record's lines or a declaration take at most, whatever the input. It is not asked for piece by piece: there must be so much left before they are made.
pub const RECORD: usize = 8 << 20;
/// The same of a line of text that is read, besides what grows by its length.
pub const LINE: usize = 1 << 16;

/// Whether there is so much left.
pub fn left(bytes: usize) -> Result<()> {
    let mut spare = Vec::<u8>::new();
    let room = spare.try_reserve_exact(bytes);
    // else a compiler may see that nobody uses it, and not ask
    std::hint::black_box(&mut spare);
    room.map_err(|_| Error::NoRoom)
}

/// Makes room for so many more.
pub fn room<T>(all: &mut Vec<T>, more: usize) -> Result<()> {
    all.try_reserve(more).map_err(|_| Error::NoRoom)
}

/// Puts one behind the others.
pub fn push<T>(all: &mut Vec<T>, one: T) -> Result<()> {
    room(all, 1)?;
    all.push(one);
    Ok(())
}

/// Puts some behind the others.
pub fn extend<T: Copy>(all: &mut Vec<T>, some: &[T]) -> Result<()> {
    room(all, some.len())?;
    all.extend_from_slice(some);
    Ok(())
}

#[cfg(test)]
mod tests {
    use super::*;

    #[test]
    fn what_no_memory_holds_is_told() {
        assert_eq!(left(LINE), Ok(()));
        assert_eq!(left(usize::MAX / 2), Err(Error::NoRoom));
        let mut all = vec![1u8];
        assert_eq!(room(&mut all, usize::MAX / 2), Err(Error::NoRoom));
        assert_eq!((push(&mut all, 2), extend(&mut all, &[3, 4]), all), (Ok(()), Ok(()), vec![1, 2, 3, 4]));
    }
}
