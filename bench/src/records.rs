//! What the services are called with: images, the events that are read by them, scripts and
//! sessions.

use crate::grammars::{
    self, among_first, any_half, chain, cyclic, flagged, largest, one_each_round, stop, two_chains,
};
use crate::plain;
use crate::random::Random;
use crate::sizes::{cells, script_words};

/// The lengths of the long records: the largest is the most that is accepted, and refusal 8 is given
/// for one more. They don't follow from the plain side's limit, so that a wrong one is seen.
pub const LENGTHS: [usize; 2] = [64, 96];

/// A service takes no notice of the parts that it has no parameter for.
#[derive(Clone)]
pub struct Input {
    pub name: &'static str,
    pub image: Vec<u8>,
    pub events: Vec<u16>,
    pub k: u32,
    /// The scripts that a page is to have.
    pub m: u32,
    pub script: Vec<u16>,
    pub session: Session,
}

/// A session as it is handed in.
#[derive(Clone, Default)]
pub struct Session {
    pub count: u64,
    /// The words of its columns.
    pub chart: Vec<u64>,
    /// The firings of its columns, where it grew by adds.
    pub firings: u64,
}

/// Numbers of words, of each kind of memory that a caller lends.
#[derive(Clone, Copy, Default)]
pub struct Words {
    pub chart: usize,
    pub table: usize,
    pub script: usize,
}

impl Input {
    pub fn new(name: &'static str, image: Vec<u8>, events: &[u16]) -> Self {
        Input {
            name,
            image,
            events: events.to_vec(),
            k: 0,
            m: 1,
            script: Vec::new(),
            session: Session::default(),
        }
    }

    pub fn named(self, name: &'static str) -> Self {
        Input { name, ..self }
    }

    pub fn with_script(self, script: &[u16]) -> Self {
        let script = script.to_vec();
        Input { script, ..self }
    }

    /// With a number and the script of its reading, from the plain side.
    pub fn with_reading(self, k: u32) -> Self {
        let needs = self.needs();
        let (mut table, mut script) = (vec![0; needs.table], vec![0; needs.script]);
        let read = plain::reading(&self.image, &self.events, k, &mut table, &mut script);
        assert_eq!(read.number, 0, "{}: reading {k}", self.title());
        Input { k, script, ..self }
    }

    /// With a session of any count and words.
    pub fn with_session(self, count: u64, chart: Vec<u64>) -> Self {
        let session = Session {
            count,
            chart,
            firings: 0,
        };
        Input { session, ..self }
    }

    /// With the session of its first events, from the plain side's fresh judgement of them.
    pub fn with_session_of(self, events: usize) -> Self {
        let mut chart = vec![0; cells(events)];
        let judged = plain::judge(&self.image, &self.events[..events], &mut chart);
        let mut input = self.with_session(events as u64, chart);
        input.session.firings = judged.firings;
        input
    }

    /// With another rule at the script's last leaf: everything before it is right.
    pub fn with_last_leaf_wrong(mut self) -> Self {
        let last = self.script.len() - 2;
        self.script[last] ^= 1;
        self
    }

    /// The name of this record among those of other lengths.
    pub fn title(&self) -> String {
        format!("{}, {}", self.name, self.events.len())
    }

    /// What the services need for this record, all of them together.
    pub fn needs(&self) -> Words {
        let n = self.events.len();
        Words {
            chart: cells(n),
            table: cells(n) * self.image[5] as usize,
            script: self.m as usize * script_words(n),
        }
    }

    /// How many in a hundred of the bits that the symbols have in the chart are one; as many words
    /// of the count table are not zero.
    pub fn fullness(&self) -> f64 {
        let needs = self.needs();
        let judged = plain::judge(&self.image, &self.events, &mut vec![0; needs.chart]);
        100.0 * judged.items as f64 / needs.table as f64
    }
}

fn evenly(s: usize, t: usize) -> usize {
    7 * s + 13 * t
}

fn even() -> Vec<u8> {
    largest(evenly)
}

fn every(events: usize) -> Vec<u16> {
    (0..8).cycle().take(events).collect()
}

/// Every cell is full.
pub fn full(events: usize) -> Input {
    Input::new("full", even(), &every(events))
}

/// Every cell holds so many symbols: the first ones, with their share of the rules of `full`.
pub fn first(symbols: usize, events: usize) -> Input {
    Input::new(
        "first symbols",
        among_first(symbols, evenly),
        &every(events),
    )
}

/// Every cell is full, and all rules share 4 left symbols.
pub fn skewed(events: usize) -> Input {
    Input::new("skewed", largest(|_, t| t), &every(events))
}

/// Two neighbours in sixteen match: 2 leaves and a stretch of two, all 64 symbols each.
pub fn nearly_empty(events: usize) -> Input {
    let known = |i| if i % 16 < 2 { 7 } else { 999 };
    let few: Vec<u16> = (0..events).map(known).collect();
    Input::new("nearly empty", even(), &few)
}

/// Five symbols of 30 stand in every cell, and at every split five rules of 180 fire.
pub fn five(events: usize) -> Input {
    one_of_each("five a cell", 5, 6, events)
}

/// Fifteen symbols of 60 stand in every cell, and at every split fifteen rules of 240 fire.
pub fn fifteen(events: usize) -> Input {
    one_of_each("fifteen a cell", 15, 4, events)
}

fn one_of_each(name: &'static str, classes: usize, size: usize, events: usize) -> Input {
    let mut random = Random::new(1);
    let image = cyclic(classes, size, &mut random);
    Input::new(name, image, &any_events(&mut random, events))
}

pub fn short() -> Input {
    Input::new("short", even(), &[7])
}

/// One event, and the grammar that takes the most rounds to test.
pub fn slowly_tested() -> Input {
    Input::new("slowly tested", one_each_round(), &[7])
}

pub fn sevens(count: usize) -> Input {
    Input::new("CHAIN", chain(), &vec![7; count])
}

/// No events, and CHAIN with a flag.
pub fn quiet(flag: u8) -> Input {
    Input::new("flagged CHAIN", flagged(&chain(), flag), &[])
}

/// As many sevens as eights.
pub fn sevens_and_eights(of_each: usize) -> Input {
    let events = [vec![7; of_each], vec![8; of_each]].concat();
    Input::new("two chains", two_chains(), &events)
}

/// The same with a grammar that has two rules for the whole.
pub fn three_chains(of_each: usize) -> Input {
    let image = grammars::three_chains();
    let record = sevens_and_eights(of_each).named("three chains");
    Input { image, ..record }
}

/// One reading, with the last split at every node.
pub fn one_by_one(events: usize) -> Input {
    Input::new("one by one", grammars::one_by_one(), &vec![7; events])
}

pub fn any_two(events: usize) -> Input {
    Input::new("any two", grammars::any_two(), &vec![7; events])
}

/// Stops without a gap.
pub fn forked(stops: usize) -> Input {
    Input::new("forked", grammars::forked(), &[1, 2].repeat(stops))
}

/// Two stops, and their one reading.
pub fn stops() -> Input {
    let script = [
        3, 3, 5, 1, 0, 1, 6, 2, 1, 2, 2, 3, 4, 4, 0, 4, 6, 5, 1, 5, 2, 6,
    ];
    stops_to(6).with_script(&script)
}

/// Stops without a gap up to the last event; the first may lack its beginning.
pub fn stops_to(events: usize) -> Input {
    let lacking = (3 - events % 3) % 3;
    let stops = [1, 2, 3].into_iter().cycle().skip(lacking);
    Input::new("STOP", stop(), &stops.take(events).collect::<Vec<_>>())
}

/// Other readings that were worked out by hand: numbers and scripts.
pub fn readings() -> [Input; 5] {
    let readings: [(Input, u32, &[u16]); 5] = [
        (sevens(1), 0, &[0, 1]),
        (sevens(3), 0, &[1, 1, 0, 1, 1, 2, 0, 2, 0, 3]),
        (sevens(3), 1, &[1, 2, 1, 1, 0, 1, 0, 2, 0, 3]),
        (stops_to(3), 0, &[4, 1, 0, 1, 6, 2, 1, 2, 2, 3]),
        (quiet(1), 0, &[]),
    ];
    readings.map(|(input, k, script)| Input { k, ..input }.with_script(script))
}

/// Scripts that are wrong in one thing, most of them near those of CHAIN over three events.
pub fn not_readings() -> [Input; 16] {
    let scripts: [(Input, &[u16]); 16] = [
        // Another length, also that of no script.
        (sevens(3), &[1, 1, 0, 1, 1, 2, 0, 2, 0]),
        (sevens(3), &[1, 1, 0, 1, 1, 2, 0, 2, 0, 3, 0]),
        (sevens(3), &[1, 1, 0, 1, 0, 2]),
        (sevens(3), &[]),
        // An empty record has no reading where no flag says so, and with the flag only one.
        (sevens(0), &[]),
        (sevens(0), &[0, 1]),
        (quiet(0), &[]),
        (quiet(1), &[0, 1]),
        // A split at an end of the stretch, a leaf's place, a rule of the other kind, and of none.
        (sevens(3), &[1, 0, 0, 1, 1, 2, 0, 2, 0, 3]),
        (sevens(3), &[1, 3, 1, 1, 0, 1, 0, 2, 0, 3]),
        (sevens(3), &[1, 1, 0, 1, 1, 2, 0, 2, 0, 2]),
        (sevens(3), &[1, 1, 1, 1, 1, 2, 0, 2, 0, 3]),
        (sevens(3), &[2, 1, 0, 1, 1, 2, 0, 2, 0, 3]),
        (sevens(3), &[u16::MAX; 10]),
        // A stop that is no day, and an event that is not the rule's.
        (stops_to(3), &[5, 1, 0, 1, 6, 2, 1, 2, 2, 3]),
        (stops_to(3), &[4, 1, 0, 1, 6, 2, 1, 2, 1, 3]),
    ];
    scripts.map(|(input, script)| input.with_script(script))
}

/// The records `half`, which is the generator's first that fills the chart about half, and `mixed`.
/// The longer ones have the same grammars and go on from the shorter ones.
pub fn drawn(events: usize) -> [Input; 2] {
    let [first, _] = LENGTHS;
    let mut random = Random::new(1);
    let mixed = draw_mixed(&mut random, first);
    let half = loop {
        let image = any_half(&mut random);
        let half = Input::new("half", image, &any_events(&mut random, first));
        if about_half(&half) {
            break half;
        }
    };
    let records = [half, mixed].map(|mut record| {
        let more = any_events(&mut random, events - first);
        record.events.extend(more);
        record
    });
    assert!(about_half(&records[0]), "half of {events} events");
    records
}

/// The first events of the record `mixed`.
pub fn mixed(events: usize) -> Input {
    draw_mixed(&mut Random::new(1), events)
}

fn draw_mixed(random: &mut Random, events: usize) -> Input {
    let image = grammars::mixed(random);
    Input::new("mixed", image, &any_events(random, events))
}

fn about_half(input: &Input) -> bool {
    (30.0..70.0).contains(&input.fullness())
}

fn any_events(random: &mut Random, count: usize) -> Vec<u16> {
    (0..count).map(|_| random.below(8) as u16).collect()
}
