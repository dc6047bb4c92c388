//! The versions of this wrapper, of the archive, and of the layout of run areas.
use crate::archive;

/// The version of this wrapper: 10000 times the first number of [`VERSION_TEXT`], 100 times the
/// second, and the third. It was written for the archive that gives the same from [`version`].
pub const VERSION: u32 = 10_000;

/// The same in words.
pub const VERSION_TEXT: &str = env!("CARGO_PKG_VERSION");

/// The layout of run areas that this wrapper knows. 1 was the layout before second sums (02, N3).
pub const LAYOUT: u32 = 2;

/// The word of a run area that holds its layout.
pub const LAYOUT_WORD: usize = 0;

/// The version of the archive, to be compared with [`VERSION`].
pub fn version() -> u32 {
    archive::version()
}

/// The layout of the archive's run areas: what word [`LAYOUT_WORD`] of every area holds that it
/// starts or accepts.
pub fn layout() -> u32 {
    archive::layout()
}

/// The layout that an area says it has, or `None` if it says none: there is no word, or it is
/// negative. No other word is looked at.
///
/// A host that stores areas reads this before it trusts one. If it is not [`layout`], the area was
/// made with another layout, and its check has to be started again from the table; every other call
/// on it would be refused as [`NotWellFormed`](crate::Refusal::NotWellFormed). If it is, the calls look at
/// the other words themselves.
///
/// ```
/// use pickledune::{Ran, Refusal};
///
/// let mut table = [0u8; pickledune::table_bytes(2, 1)];
/// pickledune::write_table(2, &[1, 2], &mut table)?;
/// // The host stored this area with an archive from before second sums.
/// let mut stored = vec![1, 1, 0, 1];
/// if pickledune::layout_of(&stored) != Some(pickledune::layout()) {
///     stored = vec![0; pickledune::area_words(2, 1)];
///     pickledune::start(&table, 1, 1, &mut stored)?;
/// }
/// assert_eq!(pickledune::layout_of(&stored), Some(pickledune::layout()));
/// assert_eq!(pickledune::run_on(&mut stored, 2048), Ran::Over(2));
/// # Ok::<(), Refusal>(())
/// ```
pub fn layout_of(area: &[i32]) -> Option<u32> {
    u32::try_from(*area.get(LAYOUT_WORD)?).ok()
}
