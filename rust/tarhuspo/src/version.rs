//! The version of the library, as `include/tarhuspo.h` has it.
//!
//! ```
//! // Compiles only while no answer can be another one than those that were stored.
//! const _: () = assert!(tarhuspo::version::MAJOR == 6);
//! ```

/// Moves when a caller's source or stored answers can break: a struct's layout, a size or limit, an
/// answer that changes for some input.
pub const MAJOR: u32 = 6;
/// Moves when something is only added: a function, a constant, an instruction that status 3 refused
/// before.
pub const MINOR: u32 = 0;

#[cfg(test)]
mod tests {
    use super::{MAJOR, MINOR};

    /// This package has the library's version, so that nobody meets two.
    #[test]
    fn package_has_the_same_version() {
        let package = env!("CARGO_PKG_VERSION");
        assert!(
            package.starts_with(&format!("{MAJOR}.{MINOR}.")),
            "{package}"
        );
    }
}
