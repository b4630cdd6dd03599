//! Memory that is asked for: where there is none a call is refused, and the program is not ended.
use crate::error::{Error, Result};

/// Makes room for so many more.
pub(crate) fn more<T>(all: &mut Vec<T>, n: usize) -> Result<()> {
    all.try_reserve(n).map_err(|_| Error::NoRoom)
}

/// Makes it so long, by zeros behind what is there.
pub(crate) fn grow<T: Copy + Default>(all: &mut Vec<T>, length: usize) -> Result<()> {
    all.try_reserve_exact(length.saturating_sub(all.len())).map_err(|_| Error::NoRoom)?;
    all.resize(length, T::default());
    Ok(())
}

/// So many zeros.
pub(crate) fn zeros<T: Copy + Default>(length: usize) -> Result<Vec<T>> {
    let mut all = Vec::new();
    grow(&mut all, length)?;
    Ok(all)
}

#[cfg(test)]
mod tests {
    use super::*;

    #[test]
    fn what_no_memory_holds_is_refused() {
        assert_eq!(zeros::<u32>(3), Ok(vec![0; 3]));
        assert_eq!(zeros::<u32>(usize::MAX), Err(Error::NoRoom));
        let mut all = vec![7u8];
        assert_eq!(
            (more(&mut all, usize::MAX), grow(&mut all, usize::MAX)),
            (Err(Error::NoRoom), Err(Error::NoRoom))
        );
        assert_eq!((grow(&mut all, 3), all), (Ok(()), vec![7, 0, 0]));
    }
}
