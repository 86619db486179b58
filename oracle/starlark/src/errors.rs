//! Help with errors.

/// Suggestions are left out: no name is ever offered instead.
pub(crate) mod did_you_mean {
    pub(crate) fn did_you_mean<'a>(
        _value: &str,
        _variants: impl IntoIterator<Item = &'a str>,
    ) -> Option<&'a str> {
        None
    }
}
