//! The grammar image: its layout in both versions, and its refusals, 1 to 7 and 15.

use crate::live::dead;

/// Turns `symbol` into `event`. Rules are compared by their fields in this order.
#[derive(Clone, Copy, Debug, PartialEq, Eq, PartialOrd, Ord)]
pub struct EventRule {
    pub symbol: usize,
    pub event: u16,
}

/// Turns `symbol` into `left` `right`. Rules are compared by their fields in this order.
#[derive(Clone, Copy, Debug, PartialEq, Eq, PartialOrd, Ord)]
pub struct PairRule {
    pub symbol: usize,
    pub left: usize,
    pub right: usize,
}

/// What an image shows, its rules sound or not.
#[derive(Clone, Debug)]
pub struct Grammar {
    /// N of the specification: symbols are 0 to N - 1.
    pub symbols: usize,
    /// Whether an empty record is admitted: so says a flag of 1, which version 1 doesn't have.
    pub admits_empty: bool,
    pub event_rules: Vec<EventRule>,
    pub pair_rules: Vec<PairRule>,
}

impl Grammar {
    /// The event rules that turn `symbol` into something, each with its number: they are numbered
    /// as they stand, from 0.
    pub fn event_rules_of(&self, symbol: usize) -> impl Iterator<Item = (usize, &EventRule)> {
        let numbered = self.event_rules.iter().enumerate();
        numbered.filter(move |(_, rule)| rule.symbol == symbol)
    }

    /// The pair rules that turn `symbol` into something, each with its number: they are numbered
    /// as they stand, from L.
    pub fn pair_rules_of(&self, symbol: usize) -> impl Iterator<Item = (usize, &PairRule)> {
        let numbered = (self.event_rules.len()..).zip(&self.pair_rules);
        numbered.filter(move |(_, rule)| rule.symbol == symbol)
    }

    /// The numbers of the rules that have a symbol of N or more.
    pub fn rules_out_of_range(&self) -> Vec<u16> {
        let unknown = |symbol: usize| symbol >= self.symbols;
        let event_rules = self.event_rules.iter().map(|r| unknown(r.symbol));
        let pair_rules = self.pair_rules.iter();
        let pair_rules =
            pair_rules.map(|r| unknown(r.symbol) || unknown(r.left) || unknown(r.right));
        numbers_at_fault(event_rules.chain(pair_rules))
    }

    /// The numbers of the rules that aren't above their predecessor of the same kind.
    pub fn rules_out_of_order(&self) -> Vec<u16> {
        numbers_at_fault(out_of_order(&self.event_rules).chain(out_of_order(&self.pair_rules)))
    }
}

/// Whether each rule of one kind isn't above its predecessor; the first has none.
fn out_of_order<Rule: Ord>(rules: &[Rule]) -> impl Iterator<Item = bool> + '_ {
    (0..rules.len()).map(|at| at > 0 && rules[at] <= rules[at - 1])
}

/// The numbers of those at fault of all rules, the event rules before the pair rules.
fn numbers_at_fault(faults: impl Iterator<Item = bool>) -> Vec<u16> {
    let at_fault = (0..).zip(faults).filter(|(_, fault)| *fault);
    at_fault.map(|(number, _)| number).collect()
}

/// Why something is refused.
#[derive(Clone, Copy, Debug, PartialEq)]
pub struct Refusal {
    pub number: u8,
    /// With 6 and 7 the number of the first rule at fault, otherwise 0.
    pub rule: u16,
}

/// The grammar that the image shows, or the first refusal of 1 to 7 and 15 that applies. A flag
/// makes no symbol live: the reading that it admits is no derivation.
pub fn decode(image: &[u8]) -> Result<Grammar, Refusal> {
    let grammar = well_formed(image)?;
    refuse_if(!dead(&grammar).is_empty(), 15)?;
    Ok(grammar)
}

/// The grammar that the image shows, or the first refusal of 1 to 7 that applies.
pub fn well_formed(image: &[u8]) -> Result<Grammar, Refusal> {
    let grammar = shown(image)?;
    refuse_first(&grammar.rules_out_of_range(), 6)?;
    refuse_first(&grammar.rules_out_of_order(), 7)?;
    Ok(grammar)
}

/// The grammar that the image shows, or the first refusal of 1 to 5 that applies.
pub fn shown(image: &[u8]) -> Result<Grammar, Refusal> {
    refuse_if(image.len() < 10, 1)?;
    refuse_if(image[0..3] != *b"ESG", 2)?;
    let version = number_at(image, 3);
    refuse_if(version != 1 && version != 2, 3)?;
    let (n, l, b) = (image[5] as usize, number_at(image, 6), number_at(image, 8));
    refuse_if(!(1..=64).contains(&n) || l > 512 || b > 256, 4)?;
    // An image that ends before its flag has none to be refused for, only a wrong length.
    let flag = image.get(10).filter(|_| version == 2);
    refuse_if(flag.is_some_and(|&flag| flag > 1), 4)?;
    let header = header_bytes(image);
    refuse_if(image.len() != header + 3 * (l + b), 5)?;
    let (event_rules, pair_rules) = image[header..].split_at(3 * l);
    Ok(Grammar {
        symbols: n,
        admits_empty: flag == Some(&1),
        event_rules: event_rules.chunks(3).map(event_rule).collect(),
        pair_rules: pair_rules.chunks(3).map(pair_rule).collect(),
    })
}

/// How many bytes come before the rules: version 2 has its flag there.
pub fn header_bytes(image: &[u8]) -> usize {
    match image.get(3..5) {
        Some([2, 0]) => 11,
        _ => 10,
    }
}

/// An error if the refusal applies, so that `?` makes the first that does the answer.
pub fn refuse_if(applies: bool, number: u8) -> Result<(), Refusal> {
    if applies {
        return Err(Refusal { number, rule: 0 });
    }
    Ok(())
}

/// The same for a refusal that applies if a rule is at fault, and that names the first.
fn refuse_first(rules_at_fault: &[u16], number: u8) -> Result<(), Refusal> {
    match rules_at_fault.first() {
        Some(&rule) => Err(Refusal { number, rule }),
        None => Ok(()),
    }
}

/// The 16-bit number, low byte first, at a place of the image.
fn number_at(bytes: &[u8], place: usize) -> usize {
    bytes[place] as usize + 256 * bytes[place + 1] as usize
}

fn event_rule(bytes: &[u8]) -> EventRule {
    EventRule {
        symbol: bytes[0] as usize,
        event: number_at(bytes, 1) as u16,
    }
}

fn pair_rule(bytes: &[u8]) -> PairRule {
    PairRule {
        symbol: bytes[0] as usize,
        left: bytes[1] as usize,
        right: bytes[2] as usize,
    }
}
