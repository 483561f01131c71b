//! The mnemonics, by the numbers that the library gives them.

pub(crate) const VPERM2F128: u32 = 5;

/// Names of the mnemonics 1, 2, 3 and so on.
const NAMES: [&str; 10] = [
    "VPERMILPD",
    "VPERMB",
    "VUNPCKLPS",
    "VPSHUFD",
    "VPERM2F128",
    "VPERMILPS",
    "VUNPCKHPS",
    "VUNPCKLPD",
    "VUNPCKHPD",
    "VPSHUFB",
];

/// The name of a mnemonic number, or `None` for a number that the library never gives.
///
/// ```
/// use tarhuspo::mnemonic_name;
///
/// assert_eq!(mnemonic_name(4), Some("VPSHUFD"));
/// assert_eq!(mnemonic_name(10), Some("VPSHUFB"));
/// assert_eq!((mnemonic_name(0), mnemonic_name(11)), (None, None));
/// ```
pub fn mnemonic_name(mnemonic: u32) -> Option<&'static str> {
    let index = usize::try_from(mnemonic).ok()?.checked_sub(1)?;
    NAMES.get(index).copied()
}
