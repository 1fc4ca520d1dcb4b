// A second, independent player of recordings, written from docs/RULES.md,
// docs/REFUSALS.md and docs/RECORDS.md alone. It is slow and literal: read it beside
// the rules. Lines that begin with `self.tally` only count, and are no part of them.
//
//   rustc -O --edition 2021 reference.rs
//   ./reference [options] < recording
//
// It prints the lines that cellplay prints. Options:
//   --keep K          another keep, 0 to 4 (2 if not given)
//   --chooser NAME    least (least served, if not given) or largest (largest debt)
//   --state [N]       also print the state at the end, and after every Nth record
//   --check           after every call try the promises listed at `check`
//   --tally           what came about and how often, on standard error: `name count`
//
// A state is one line for the cell, then one for each place, ascending:
//   state after R mark M booked B turns T keep K
//   place P rate R price P time V lag L allowance A channel good|bad active yes|no
//     credit C extra E waiting N TAG:LENGTH ...
//   closed P credit C extra E
// (the second is one line; credit and extra are least served's two counts. A place that isn't
// open has a line only if one of them isn't 0). A record that can't be read is followed by
//   fault R layer record number N byte B

use std::collections::{BTreeMap, VecDeque};
use std::io::{self, BufReader, BufWriter, Read, Write};
use std::process::exit;

// ---------------------------------------------------------------- numbers

const LINK: i128 = 720_720;
const PLACES: usize = 64;
const QUEUE: usize = 32;
const LONGEST: i128 = 1_536;
const IDLE_LENGTH: i128 = 256;
const MOST_TURNS: u64 = 2_000_000_000;
const MOST_RECORDS: u64 = 1_000_000;
const LARGEST_COUNT: i128 = (1 << 63) - 1;

type Refusal = u32;
const TRUNCATED_RECORD: Refusal = 1;
const UNKNOWN_LETTER: Refusal = 2;
const UNUSED_BYTE_NOT_ZERO: Refusal = 3;
const NOTE_NOT_PRINTABLE: Refusal = 4;
const PLACE_TOO_HIGH: Refusal = 5;
const PLACE_OPEN: Refusal = 6;
const PLACE_NOT_OPEN: Refusal = 7;
const RATE_NOT_IN_TARIFF: Refusal = 8;
const LINK_OVERBOOKED: Refusal = 9;
const SESSION_ACTIVE: Refusal = 10;
const AHEAD_OF_MARK: Refusal = 11;
const LENGTH_OUT_OF_RANGE: Refusal = 12;
const QUEUE_FULL: Refusal = 13;
const NONE_ACTIVE: Refusal = 14;
const TURNS_USED_UP: Refusal = 15;

// ---------------------------------------------------------------- sessions

struct Frame {
    tag: u32,
    length: i128,
}

struct Session {
    rate: i128,
    price: i128,
    virtual_time: i128,
    lag: i128,
    allowance: i128,
    good: bool,
    active: bool,
    queue: VecDeque<Frame>,
}

impl Session {
    fn lags(&self) -> bool {
        self.lag > 0
    }

    fn leads(&self) -> bool {
        self.lag < 0
    }

    fn able(&self) -> bool {
        !self.queue.is_empty() && self.good
    }
}

// ---------------------------------------------------------------- lists, offers, choosers

#[derive(Clone, Copy)]
enum List {
    Credit, // able sessions that lag
    Extra,  // able sessions whose lag is at most 0
}

// An offered entry. The rate is left out: neither chooser looks at it.
#[derive(Clone, Copy)]
struct Entry {
    lag: i128,
    price: i128,
}

type Offer = [Option<Entry>; PLACES];

enum Chooser {
    LargestDebt,
    LeastServed { counts: [[i128; PLACES]; 2] }, // for each list, for each place
}

impl Chooser {
    fn pick(&self, list: List, offer: &Offer) -> Option<usize> {
        let mut best: Option<(usize, i128)> = None;
        for place in 0..PLACES {
            let Some(entry) = offer[place] else { continue };
            // The smaller, the better; the lower place on a tie.
            let value = match self {
                Chooser::LargestDebt => -(entry.lag * entry.price),
                Chooser::LeastServed { counts } => counts[list as usize][place],
            };
            match best {
                Some((_, smallest)) if smallest <= value => {}
                _ => best = Some((place, value)),
            }
        }
        best.map(|(place, _)| place)
    }

    fn served(&mut self, list: List, place: usize, length: i128, price: i128) {
        if let Chooser::LeastServed { counts } = self {
            let count = &mut counts[list as usize][place];
            *count = (*count + length * price).min(LARGEST_COUNT);
        }
    }

    fn joined(&mut self, list: List, place: usize, offer: &Offer) {
        if let Chooser::LeastServed { counts } = self {
            let counts = &mut counts[list as usize];
            let offered = (0..PLACES).filter(|other| offer[*other].is_some());
            if let Some(smallest) = offered.map(|other| counts[other]).min() {
                counts[place] = counts[place].max(smallest);
            }
        }
    }

    fn cleared(&mut self, place: usize) {
        if let Chooser::LeastServed { counts } = self {
            counts[List::Credit as usize][place] = 0;
            counts[List::Extra as usize][place] = 0;
        }
    }
}

// ---------------------------------------------------------------- calls and answers

enum Call {
    Open { place: usize, rate: i128 },
    Close { place: usize },
    Arrive { place: usize, tag: u32, length: i128 },
    Report { place: usize, good: bool },
    Turn,
}

enum Answer {
    Done,
    Turned(Turn),
}

struct Turn {
    chosen: usize,
    sender: Option<usize>,
    tag: Option<u32>,
    length: i128,
    kind: &'static str,
}

// ---------------------------------------------------------------- the cell

struct Cell {
    keep: i128,
    chooser: Chooser,
    places: [Option<Session>; PLACES],
    mark: i128,
    turns: u64,
    tally: Tally, // no part of the rules
}

impl Cell {
    fn new(keep: i128, chooser: Chooser) -> Cell {
        let places = [const { None }; PLACES];
        Cell { keep, chooser, places, mark: 0, turns: 0, tally: Tally::default() }
    }

    // The session at an open place.
    fn at(&mut self, place: usize) -> &mut Session {
        self.places[place].as_mut().unwrap()
    }

    // The open places, ascending.
    fn sessions(&self) -> impl Iterator<Item = (usize, &Session)> {
        let all = self.places.iter().enumerate();
        all.filter_map(|(place, session)| session.as_ref().map(|s| (place, s)))
    }

    fn booked(&self) -> i128 {
        self.sessions().map(|(_, s)| s.rate).sum()
    }

    fn any_active(&self) -> bool {
        self.sessions().any(|(_, s)| s.active)
    }

    // Who is in a list now.
    fn list(&self, list: List) -> [bool; PLACES] {
        let mut inside = [false; PLACES];
        for (place, session) in self.sessions() {
            inside[place] = match list {
                List::Credit => session.able() && session.lags(),
                List::Extra => session.able() && !session.lags(),
            };
        }
        inside
    }

    fn offer(&self, offered: [bool; PLACES]) -> Offer {
        let mut offer: Offer = [None; PLACES];
        for (place, session) in self.sessions() {
            if offered[place] {
                offer[place] = Some(Entry { lag: session.lag, price: session.price });
            }
        }
        offer
    }

    // The chooser's pick from a list; none exactly when the list is empty.
    fn pick(&self, list: List) -> Option<usize> {
        self.chooser.pick(list, &self.offer(self.list(list)))
    }

    // Any call. What follows every accepted call is here.
    fn call(&mut self, call: Call) -> Result<Answer, Refusal> {
        let credit_before = self.list(List::Credit);
        let extra_before = self.list(List::Extra);
        let active_before = self.any_active();
        let answer = match call {
            Call::Open { place, rate } => self.open(place, rate)?,
            Call::Close { place } => self.close(place)?,
            Call::Arrive { place, tag, length } => self.arrive(place, tag, length)?,
            Call::Report { place, good } => self.report(place, good)?,
            Call::Turn => self.turn()?,
        };
        self.set_mark(active_before);
        self.tell_joined(List::Credit, credit_before);
        self.tell_joined(List::Extra, extra_before);
        Ok(answer)
    }

    fn set_mark(&mut self, active_before: bool) {
        let active = self.sessions().filter(|(_, s)| s.active);
        if let Some(smallest) = active.map(|(_, s)| s.virtual_time).min() {
            self.mark = smallest;
        } else if active_before {
            self.mark = self.sessions().map(|(_, s)| s.virtual_time).max().unwrap();
            self.tally.add("cell-emptied", true);
        }
        self.tally.most("most-mark", self.mark as u64);
    }

    fn tell_joined(&mut self, list: List, before: [bool; PLACES]) {
        let after = self.list(list);
        let mut stayed = [false; PLACES];
        for place in 0..PLACES {
            stayed[place] = before[place] && after[place];
        }
        let offer = self.offer(stayed);
        for place in 0..PLACES {
            if after[place] && !before[place] {
                self.chooser.joined(list, place, &offer);
                self.tally.add("joins", true);
                self.tally.add("joins-with-offer", offer.iter().any(|e| e.is_some()));
            }
        }
    }

    // Refusals 5 and 7: what close, arrive and report check first.
    fn must_be_open(&self, place: usize) -> Result<(), Refusal> {
        if place >= PLACES {
            return Err(PLACE_TOO_HIGH);
        }
        if self.places[place].is_none() {
            return Err(PLACE_NOT_OPEN);
        }
        Ok(())
    }

    fn open(&mut self, place: usize, rate: i128) -> Result<Answer, Refusal> {
        if place >= PLACES {
            return Err(PLACE_TOO_HIGH);
        }
        if self.places[place].is_some() {
            return Err(PLACE_OPEN);
        }
        if rate == 0 || LINK % rate != 0 {
            return Err(RATE_NOT_IN_TARIFF);
        }
        if self.booked() + rate > LINK {
            return Err(LINK_OVERBOOKED);
        }
        self.places[place] = Some(Session {
            rate,
            price: LINK / rate,
            virtual_time: 0,
            lag: 0,
            allowance: 0,
            good: true,
            active: false,
            queue: VecDeque::new(),
        });
        self.chooser.cleared(place);
        self.tally.opened(place, rate);
        Ok(Answer::Done)
    }

    fn close(&mut self, place: usize) -> Result<Answer, Refusal> {
        self.must_be_open(place)?;
        if self.at(place).active {
            return Err(SESSION_ACTIVE);
        }
        if self.at(place).virtual_time > self.mark {
            return Err(AHEAD_OF_MARK);
        }
        self.places[place] = None;
        Ok(Answer::Done)
    }

    fn arrive(&mut self, place: usize, tag: u32, length: i128) -> Result<Answer, Refusal> {
        self.must_be_open(place)?;
        if length == 0 || length > LONGEST {
            return Err(LENGTH_OUT_OF_RANGE);
        }
        if self.at(place).queue.len() == QUEUE {
            return Err(QUEUE_FULL);
        }
        let mark = self.mark;
        let session = self.at(place);
        session.queue.push_back(Frame { tag, length });
        if !session.active {
            session.virtual_time = session.virtual_time.max(mark);
            session.active = true;
        }
        let full = session.queue.len() == QUEUE;
        self.tally.add("queue-32", full);
        Ok(Answer::Done)
    }

    fn report(&mut self, place: usize, good: bool) -> Result<Answer, Refusal> {
        self.must_be_open(place)?;
        self.at(place).good = good;
        Ok(Answer::Done)
    }

    // The steps are numbered as in the rules.
    fn turn(&mut self) -> Result<Answer, Refusal> {
        // 1. Of equal minima `min_by_key` answers the first: the lower place.
        let active = self.sessions().filter(|(_, s)| s.active);
        let Some((chosen, session)) = active.min_by_key(|(_, s)| s.virtual_time) else {
            return Err(NONE_ACTIVE);
        };
        if self.turns == MOST_TURNS {
            return Err(TURNS_USED_UP);
        }
        let able = session.able();
        let led = session.leads();
        let step_2 = able && session.lag >= 0;
        let step_3 = able && led && session.allowance >= 0;
        let price = session.price;

        // 2 to 7.
        let (kind, sender) = if step_2 || step_3 {
            ("n", Some(chosen))
        } else if let Some(place) = self.pick(List::Credit) {
            ("c", Some(place))
        } else if able {
            ("k", Some(chosen))
        } else if let Some(place) = self.pick(List::Extra) {
            ("x", Some(place))
        } else {
            ("i", None)
        };

        // 8.
        let frame = sender.map(|place| self.at(place).queue.pop_front().unwrap());
        let tag = frame.as_ref().map(|f| f.tag);
        let length = frame.map_or(IDLE_LENGTH, |f| f.length);
        let charge = length * price;
        let keep = self.keep;
        let session = self.at(chosen);
        session.virtual_time += charge;
        if led {
            session.allowance += keep * charge;
        }
        if step_3 {
            session.allowance -= 4 * charge;
        }

        // 9.
        match (kind, sender) {
            ("c", Some(place)) => self.lend(List::Credit, chosen, place, length),
            ("x", Some(place)) => self.lend(List::Extra, chosen, place, length),
            _ => {}
        }

        // 10.
        self.departures();

        self.turns += 1;
        self.tally.add("by-allowance", step_3);
        self.tally.add("chosen-led", led);
        self.count_turn(sender);
        Ok(Answer::Turned(Turn { chosen, sender, tag, length, kind }))
    }

    // Step 9: the chosen's turn went to the sender.
    fn lend(&mut self, list: List, chosen: usize, sender: usize, length: i128) {
        self.change_lag(chosen, length);
        self.change_lag(sender, -length);
        let price = self.at(sender).price;
        self.chooser.served(list, sender, length, price);
    }

    fn change_lag(&mut self, place: usize, by: i128) {
        let session = self.at(place);
        let before = session.lag;
        session.lag += by;
        if before >= 0 && session.lag < 0 {
            let old = session.allowance;
            session.allowance = 0;
            self.tally.add("leads-begun", true);
            self.tally.add("leads-begun-allowance-not-0", old != 0);
        }
    }

    // Step 10.
    fn departures(&mut self) {
        self.tally.departures_begin();
        while let Some(place) = self.next_to_depart() {
            let session = self.at(place);
            let lag = session.lag;
            session.lag = 0;
            session.active = false;
            self.tally.departure(place, lag);
            if lag != 0 {
                self.share(lag);
            }
        }
    }

    fn next_to_depart(&self) -> Option<usize> {
        let mut sessions = self.sessions();
        let found = sessions.find(|(_, s)| s.active && s.queue.is_empty() && s.lag >= 0);
        found.map(|(place, _)| place)
    }

    // The lag here is above 0, so that dividing cuts down to the floor.
    fn share(&mut self, lag: i128) {
        let active = self.sessions().filter(|(_, s)| s.active);
        let all_rates: i128 = active.map(|(_, s)| s.rate).sum();
        let mut rates = 0;
        let mut given = 0;
        let mut exact = true;
        for place in 0..PLACES {
            let Some(session) = &mut self.places[place] else { continue };
            if !session.active {
                continue;
            }
            rates += session.rate;
            let together = lag * rates / all_rates;
            let led = session.leads();
            session.lag += together - given;
            given = together;
            exact = exact && lag * rates % all_rates == 0;
            let ended = led && !session.leads();
            self.tally.lead_ended(place, ended);
        }
        self.tally.add("departures-with-remainder", !exact);
    }

    // For the tally: how the cell stands after a turn.
    fn count_turn(&mut self, sender: Option<usize>) {
        if !self.tally.on {
            return;
        }
        let open = self.sessions().count() as u64;
        let waiting = self.sessions().filter(|(_, s)| !s.queue.is_empty()).count() as u64;
        let lag = self.sessions().map(|(_, s)| s.lag).max().unwrap_or(0);
        let lead = self.sessions().map(|(_, s)| -s.lag).max().unwrap_or(0);
        self.tally.add("turns-64-open", open == 64);
        self.tally.add("turns-64-waiting", waiting == 64);
        self.tally.most("most-lag", lag as u64);
        self.tally.most("most-lead", lead as u64);
        if let Some(place) = sender {
            let rate = self.at(place).rate;
            self.tally.add("sends-at-rate-1", rate == 1);
            self.tally.add("sends-at-rate-720720", rate == LINK);
            self.tally.senders |= 1 << place;
        }
    }
}

// ---------------------------------------------------------------- records

struct Record {
    letter: char,
    call: Call,
    note: String,
}

// Reads up to 16 bytes; fewer only where the input ends.
fn read_bytes(input: &mut impl Read) -> Vec<u8> {
    let mut bytes = Vec::new();
    input.take(16).read_to_end(&mut bytes).expect("reading standard input");
    bytes
}

// The record, or the refusal and the byte at fault.
fn read_record(bytes: &[u8]) -> Result<Record, (Refusal, usize)> {
    if bytes.len() < 16 {
        return Err((TRUNCATED_RECORD, bytes.len()));
    }
    let letter = bytes[0] as char;
    let mut unused = match letter {
        'O' => 2..4,
        'C' | 'G' | 'B' => 2..8,
        'A' => 8..8,
        'T' => 1..8,
        _ => return Err((UNKNOWN_LETTER, 0)),
    };
    if let Some(byte) = unused.find(|at| bytes[*at] != 0) {
        return Err((UNUSED_BYTE_NOT_ZERO, byte));
    }
    if let Some(byte) = (8..16).find(|at| bytes[*at] < 32 || bytes[*at] > 126) {
        return Err((NOTE_NOT_PRINTABLE, byte));
    }
    let place = bytes[1] as usize;
    let length = u16::from_le_bytes([bytes[2], bytes[3]]) as i128;
    let value = u32::from_le_bytes([bytes[4], bytes[5], bytes[6], bytes[7]]);
    let call = match letter {
        'O' => Call::Open { place, rate: value as i128 },
        'C' => Call::Close { place },
        'A' => Call::Arrive { place, tag: value, length },
        'G' => Call::Report { place, good: true },
        'B' => Call::Report { place, good: false },
        _ => Call::Turn,
    };
    Ok(Record { letter, call, note: String::from_utf8(bytes[8..].to_vec()).unwrap() })
}

// ---------------------------------------------------------------- printing

fn result_text(result: &Result<Answer, Refusal>) -> String {
    match result {
        Err(refusal) => format!("E{refusal}"),
        Ok(Answer::Done) => "ok".to_string(),
        Ok(Answer::Turned(turn)) => {
            let sender = turn.sender.map_or("-".to_string(), |place| place.to_string());
            let tag = turn.tag.map_or("-".to_string(), |tag| tag.to_string());
            format!("{}/{}/{}/{}/{}", turn.chosen, sender, tag, turn.length, turn.kind)
        }
    }
}

fn print_state(cell: &Cell, records: u64, out: &mut impl Write) -> io::Result<()> {
    let (mark, booked, turns, keep) = (cell.mark, cell.booked(), cell.turns, cell.keep);
    writeln!(out, "state after {records} mark {mark} booked {booked} turns {turns} keep {keep}")?;
    for place in 0..PLACES {
        let (credit, extra) = match &cell.chooser {
            Chooser::LargestDebt => (0, 0),
            Chooser::LeastServed { counts } => (counts[0][place], counts[1][place]),
        };
        let Some(s) = &cell.places[place] else {
            if credit != 0 || extra != 0 {
                writeln!(out, "closed {place} credit {credit} extra {extra}")?;
            }
            continue;
        };
        write!(out, "place {place} rate {} price {}", s.rate, s.price)?;
        write!(out, " time {} lag {} allowance {}", s.virtual_time, s.lag, s.allowance)?;
        write!(out, " channel {}", if s.good { "good" } else { "bad" })?;
        write!(out, " active {}", if s.active { "yes" } else { "no" })?;
        write!(out, " credit {credit} extra {extra} waiting {}", s.queue.len())?;
        for frame in &s.queue {
            write!(out, " {}:{}", frame.tag, frame.length)?;
        }
        writeln!(out)?;
    }
    Ok(())
}

// ---------------------------------------------------------------- checking and counting

// What must hold after every call. `able_before`: was a session able just before it?
fn check(cell: &Cell, able_before: bool, result: &Result<Answer, Refusal>) -> Result<(), String> {
    let sum: i128 = cell.sessions().map(|(_, s)| s.lag).sum();
    if sum != 0 {
        return Err(format!("the lags add up to {sum}, not to 0"));
    }
    for (place, s) in cell.sessions() {
        let waits = !s.queue.is_empty();
        if !waits && !s.leads() && s.lag != 0 {
            return Err(format!("place {place} has no frame, doesn't lead and has lag {}", s.lag));
        }
        if s.active != (waits || s.leads()) {
            return Err(format!("place {place} is wrongly active or wrongly inactive"));
        }
    }
    if let Ok(Answer::Turned(turn)) = result {
        if turn.sender.is_none() == able_before {
            let able = if able_before { "a" } else { "no" };
            return Err(format!("sender {:?}, though {able} session was able", turn.sender));
        }
    }
    Ok(())
}

// Names that begin with `most-` are largest values, all others are counts.
#[derive(Default)]
struct Tally {
    on: bool,
    counts: BTreeMap<&'static str, u64>,
    refusals: [u64; 18],
    senders: u64,                      // a bit for each place that has sent
    last_rates: BTreeMap<usize, i128>, // of places that have been open
    departed: u64,                     // how many in this turn so far
    chain: u64,                        // the last of them: how many led to it, with itself
    chains: BTreeMap<usize, u64>,      // leads ended in this turn: how many led to that
}

impl Tally {
    fn add(&mut self, name: &'static str, so: bool) {
        if self.on {
            *self.counts.entry(name).or_insert(0) += so as u64;
        }
    }

    fn most(&mut self, name: &'static str, value: u64) {
        if self.on {
            let old = self.counts.entry(name).or_insert(0);
            *old = value.max(*old);
        }
    }

    fn opened(&mut self, place: usize, rate: i128) {
        let last = self.last_rates.insert(place, rate);
        self.add("reopened", last.is_some());
        self.add("reopened-other-rate", last.is_some_and(|last| last != rate));
        self.add("opened-at-rate-1", rate == 1);
        self.add("opened-at-rate-720720", rate == LINK);
    }

    fn departures_begin(&mut self) {
        self.chains.clear();
        self.departed = 0;
    }

    fn departure(&mut self, place: usize, lag: i128) {
        self.chain = self.chains.get(&place).map_or(1, |before| before + 1);
        self.departed += 1;
        self.add("departures", true);
        self.add("departures-with-lag", lag != 0);
        self.add("departures-chained", self.chain > 1);
        self.most("most-departures-in-a-turn", self.departed);
        self.most("most-departures-in-a-chain", self.chain);
    }

    fn lead_ended(&mut self, place: usize, ended: bool) {
        self.add("leads-ended-by-share", ended);
        if ended {
            self.chains.insert(place, self.chain);
        }
    }

    fn result(&mut self, result: &Result<Answer, Refusal>) {
        match result {
            Err(refusal) => self.refusals[*refusal as usize] += 1,
            Ok(Answer::Done) => self.add("ok", true),
            Ok(Answer::Turned(turn)) => self.add(turn.kind, true),
        }
    }

    fn state(&mut self, places: usize) {
        *self.counts.entry("states").or_insert(0) += 1;
        *self.counts.entry("states-places").or_insert(0) += places as u64;
    }

    fn print(&mut self) {
        self.most("most-places-that-sent", self.senders.count_ones() as u64);
        for (name, count) in &self.counts {
            eprintln!("{name} {count}");
        }
        for (number, count) in self.refusals.iter().enumerate().skip(1) {
            eprintln!("refused-{number} {count}");
        }
    }
}

// ---------------------------------------------------------------- the program

struct Options {
    keep: i128,
    chooser: Chooser,
    state: bool,
    state_every: Option<u64>,
    check: bool,
    tally: bool,
}

fn wrong(message: &str) -> ! {
    eprintln!("reference: {message}");
    exit(2)
}

fn read_options() -> Options {
    let least_served = || Chooser::LeastServed { counts: [[0; PLACES]; 2] };
    let mut options = Options {
        keep: 2,
        chooser: least_served(),
        state: false,
        state_every: None,
        check: false,
        tally: false,
    };
    let mut words = std::env::args().skip(1).peekable();
    while let Some(word) = words.next() {
        match word.as_str() {
            "--keep" => match words.next().and_then(|k| k.parse().ok()) {
                Some(keep) if (0..=4).contains(&keep) => options.keep = keep,
                _ => wrong("a keep is 0 to 4"),
            },
            "--chooser" => match words.next().as_deref() {
                Some("least") => options.chooser = least_served(),
                Some("largest") => options.chooser = Chooser::LargestDebt,
                _ => wrong("a chooser is least or largest"),
            },
            "--state" => {
                options.state = true;
                let every = words.peek().and_then(|n| n.parse().ok()).filter(|n| *n > 0);
                if every.is_some() {
                    words.next();
                    options.state_every = every;
                }
            }
            "--check" => options.check = true,
            "--tally" => options.tally = true,
            _ => wrong("options are --keep K, --chooser NAME, --state [N], --check, --tally"),
        }
    }
    options
}

fn main() -> io::Result<()> {
    let options = read_options();
    let mut input = BufReader::new(io::stdin().lock());
    let mut out = BufWriter::new(io::stdout().lock());
    let mut cell = Cell::new(options.keep, options.chooser);
    cell.tally.on = options.tally;
    let mut number = 0;
    while number < MOST_RECORDS {
        let bytes = read_bytes(&mut input);
        if bytes.is_empty() {
            break;
        }
        number += 1;
        let record = match read_record(&bytes) {
            Ok(record) => record,
            Err((refusal, byte)) => {
                writeln!(out, "{number} ? E{refusal}")?;
                cell.tally.result(&Err(refusal));
                if options.state {
                    writeln!(out, "fault {refusal} layer record number {number} byte {byte}")?;
                }
                break;
            }
        };
        let able_before = cell.sessions().any(|(_, s)| s.able());
        let result = cell.call(record.call);
        writeln!(out, "{number} {} {} {}", record.letter, result_text(&result), record.note)?;
        cell.tally.result(&result);
        if options.check {
            if let Err(message) = check(&cell, able_before, &result) {
                out.flush()?;
                eprintln!("reference: after record {number}: {message}");
                exit(1);
            }
        }
        if options.state_every.is_some_and(|every| number % every == 0) {
            print_state(&cell, number, &mut out)?;
            cell.tally.state(cell.places.iter().flatten().count());
        }
    }
    if options.state {
        print_state(&cell, number, &mut out)?;
        cell.tally.state(cell.places.iter().flatten().count());
    }
    if options.tally {
        eprintln!("records {number}");
        cell.tally.print();
    }
    out.flush()
}
