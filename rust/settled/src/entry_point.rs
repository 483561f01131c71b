//! The base's entry points.

#[derive(Debug, Clone, Copy, PartialEq, Eq)]
pub enum EntryPoint {
    Decode,
    Step,
    Run,
    Build,
    Apply,
    Compose,
    Listing,
}

impl EntryPoint {
    /// In the order of the results.
    pub const ALL: [EntryPoint; 7] = [
        EntryPoint::Decode,
        EntryPoint::Step,
        EntryPoint::Run,
        EntryPoint::Build,
        EntryPoint::Apply,
        EntryPoint::Compose,
        EntryPoint::Listing,
    ];

    /// Its name in the results, and that of its file of records.
    pub fn name(self) -> &'static str {
        match self {
            EntryPoint::Decode => "decode",
            EntryPoint::Step => "step",
            EntryPoint::Run => "run",
            EntryPoint::Build => "build",
            EntryPoint::Apply => "apply",
            EntryPoint::Compose => "compose",
            EntryPoint::Listing => "listing",
        }
    }

    /// Whether the code of its inputs stands in the file of lists.
    pub fn is_listed(self) -> bool {
        matches!(
            self,
            EntryPoint::Run | EntryPoint::Build | EntryPoint::Listing
        )
    }
}
