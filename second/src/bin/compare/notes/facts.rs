//! What may be true of something that was seen, by name.

/// Something that may be true.
pub type Fact<Of> = (&'static str, fn(&Of) -> bool);

pub fn facts_about<'a, Of>(
    facts: &'a [Fact<Of>],
    of: &'a Of,
) -> impl Iterator<Item = &'static str> + 'a {
    let are_true = facts.iter().filter(move |fact| (fact.1)(of));
    are_true.map(|fact| fact.0)
}

pub fn names<Of>(facts: &[Fact<Of>]) -> impl Iterator<Item = String> + '_ {
    facts.iter().map(|fact| fact.0.to_string())
}
