// Writes a random recording to standard output, to play on two players and compare.
//
//   rustc -O --edition 2021 generate.rs
//   ./generate SEED RECORDS PROFILE > recording
//
// The same arguments give the same bytes. The profiles:
//   hall        all 64 places open, deep queues, some fades
//   fades       a few to many places, channels that change all the time
//   leads       few places, rare and long fades: leads that keep some of their turns
//   departures  one to three frames a session, long fades: leads end by departures
//   chains      one session is owed much and departs: its lag ends many small leads at once
//   reopen      sessions close and open again at other rates
//   full        few places, queues filled to the last frame and beyond
//   idle        every channel bad for a while, empty cells, turns with nobody active
//   ties        equal rates and equal lengths: the lower place decides
//   rates       any rate of the tariff, 1 and 720,720 too
//   extremes    rates of 1, of 720,720 and of what is left; shortest and longest frames
//   refusals    half of the calls are wrong ones, often for two reasons at once
//   mixed       every scene from another of the profiles above
//   damaged     like mixed, up to RECORDS records, then a damaged or cut record
//   faults      SEED counts through 372 recordings: each letter cut after 1 to 15 bytes, and
//               with each of its bytes damaged in one of two ways (the number is not used)
//   sample      the sample recording (seed and number are not used)
//
// A recording is a row of scenes. A scene has its own places, rates, queues, lengths
// and habits; now and then the cell is emptied and closed between two of them. The
// writer knows no cell: it keeps a guess of what is open and what waits.

use std::io::{self, Write};
use std::process::exit;

const LINK: u32 = 720_720;

// ---------------------------------------------------------------- chance

// splitmix64
struct Chance {
    state: u64,
}

impl Chance {
    fn next(&mut self) -> u64 {
        self.state = self.state.wrapping_add(0x9e37_79b9_7f4a_7c15);
        let mut z = self.state;
        z = (z ^ (z >> 30)).wrapping_mul(0xbf58_476d_1ce4_e5b9);
        z = (z ^ (z >> 27)).wrapping_mul(0x94d0_49bb_1331_11eb);
        z ^ (z >> 31)
    }

    // A number from low to high, both included.
    fn number(&mut self, low: u32, high: u32) -> u32 {
        low + (self.next() % (high as u64 - low as u64 + 1)) as u32
    }

    // True so many times in a hundred.
    fn percent(&mut self, times: u32) -> bool {
        self.number(1, 100) <= times
    }

    fn of<T: Copy>(&mut self, choices: &[T]) -> T {
        choices[self.number(0, choices.len() as u32 - 1) as usize]
    }

    // An index, each as often as its weight says.
    fn weighted(&mut self, weights: &[u32]) -> usize {
        let mut left = self.number(1, weights.iter().sum());
        for (index, weight) in weights.iter().enumerate() {
            if left <= *weight {
                return index;
            }
            left -= weight;
        }
        unreachable!()
    }
}

// ---------------------------------------------------------------- profiles

// Pairs are the fewest and the most; a scene draws its own from them.
#[derive(Clone, Copy)]
struct Profile {
    name: &'static str,
    places: (u32, u32),
    waiting: (u32, u32), // frames a session that arrivals aim at
    arrive: u32,         // weights of the calls
    turn: u32,
    report: (u32, u32),
    close: u32,
    wrong: u32,
    blackout: u32,   // all channels bad, a few turns, all good
    burst: u32,      // a whole queue for one place
    settle: u32,     // one is owed much, the others lead a little and have no frame left
    bad: (u32, u32), // reports of a bad channel in a hundred
    drain: u32,      // scenes in a hundred that end with an emptied cell
    rates: &'static [Rates],
    lengths: &'static [Lengths],
}

#[derive(Clone, Copy)]
enum Rates {
    Equal,   // all the same
    Near,    // from an eighth of the equal rate up to it
    Any,     // anything of the tariff that still fits
    Extreme, // 1, the equal rate and whatever is left
    Uneven,  // half of the link for the first, little for the others
}

#[derive(Clone, Copy)]
enum Lengths {
    Any,
    Small, // 1 to 9
    Edges, // 1, 2, 1,535, 1,536
    Odd,
    Same, // all the same in this scene
}

const ALL_RATES: &[Rates] = &[Rates::Equal, Rates::Near, Rates::Near, Rates::Any, Rates::Extreme];
const TAME_RATES: &[Rates] = &[Rates::Equal, Rates::Near, Rates::Near, Rates::Near, Rates::Any];
const ALL_LENGTHS: &[Lengths] =
    &[Lengths::Any, Lengths::Any, Lengths::Small, Lengths::Edges, Lengths::Odd, Lengths::Same];
const ODD_LENGTHS: &[Lengths] = &[Lengths::Odd, Lengths::Odd, Lengths::Small, Lengths::Any];

const PLAIN: Profile = Profile {
    name: "",
    places: (2, 24),
    waiting: (1, 8),
    arrive: 100,
    turn: 100,
    report: (5, 30),
    close: 2,
    wrong: 2,
    blackout: 0,
    burst: 0,
    settle: 0,
    bad: (10, 50),
    drain: 50,
    rates: TAME_RATES,
    lengths: ALL_LENGTHS,
};

const PROFILES: [Profile; 12] = [
    Profile { name: "hall", places: (64, 64), waiting: (1, 24), drain: 20, ..PLAIN },
    Profile { name: "fades", places: (2, 40), report: (40, 160), bad: (20, 60), ..PLAIN },
    Profile {
        name: "leads",
        places: (3, 10),
        waiting: (4, 16),
        report: (1, 4),
        bad: (20, 60),
        drain: 30,
        ..PLAIN
    },
    Profile {
        name: "departures",
        places: (3, 16),
        waiting: (1, 3),
        report: (10, 40),
        close: 4,
        lengths: ODD_LENGTHS,
        ..PLAIN
    },
    Profile {
        name: "chains",
        places: (4, 64),
        waiting: (1, 2),
        arrive: 10,
        turn: 10,
        report: (1, 4),
        close: 1,
        wrong: 1,
        settle: 2,
        rates: &[Rates::Uneven, Rates::Uneven, Rates::Near, Rates::Any],
        ..PLAIN
    },
    Profile { name: "reopen", waiting: (1, 2), close: 25, drain: 90, ..PLAIN },
    Profile { name: "full", places: (1, 6), waiting: (20, 34), burst: 1, drain: 20, ..PLAIN },
    Profile { name: "idle", places: (1, 12), waiting: (1, 4), blackout: 8, drain: 90, ..PLAIN },
    Profile {
        name: "ties",
        waiting: (1, 4),
        rates: &[Rates::Equal],
        lengths: &[Lengths::Same],
        ..PLAIN
    },
    Profile { name: "rates", rates: ALL_RATES, ..PLAIN },
    Profile {
        name: "extremes",
        places: (1, 64),
        waiting: (1, 4),
        blackout: 1,
        rates: &[Rates::Extreme],
        lengths: &[Lengths::Edges, Lengths::Edges, Lengths::Any],
        ..PLAIN
    },
    Profile {
        name: "refusals",
        places: (1, 64),
        close: 10,
        wrong: 200,
        blackout: 1,
        burst: 1,
        rates: ALL_RATES,
        ..PLAIN
    },
];

// ---------------------------------------------------------------- the guess

#[derive(Clone, Copy, PartialEq)]
enum Open {
    No,
    Yes,
    Unsure, // a close was written and may have been refused
}

#[derive(Clone, Copy)]
struct Guess {
    open: Open,
    rate: u32, // what it books at most; 0 if not open
    good: bool,
    waiting: u32,
}

const SHUT: Guess = Guess { open: Open::No, rate: 0, good: true, waiting: 0 };

// What one scene has drawn from its profile.
#[derive(Clone, Copy)]
struct Scene {
    profile: Profile,
    places: u32,
    waiting: u32,
    report: u32,
    bad: u32,
    wave: u64, // so many calls with more arrivals, then so many with more turns; 0: none
    rates: Rates,
    lengths: Lengths,
    same: u32,
    notes: u32,
}

struct Writer {
    chance: Chance,
    divisors: Vec<u32>,
    guesses: [Guess; 64],
    scene: Scene,
    next_tag: u32,
    left: u64, // records still to write
    bytes: Vec<u8>,
}

impl Writer {
    fn new(seed: u64, records: u64) -> Writer {
        let scene = Scene {
            profile: PLAIN,
            places: 0,
            waiting: 0,
            report: 0,
            bad: 0,
            wave: 0,
            rates: Rates::Near,
            lengths: Lengths::Any,
            same: 1,
            notes: 0,
        };
        Writer {
            chance: Chance { state: seed },
            divisors: (1..=LINK).filter(|rate| LINK % rate == 0).collect(),
            guesses: [SHUT; 64],
            scene,
            next_tag: 1,
            left: records,
            bytes: Vec::new(),
        }
    }

    // ------------------------------------------------------------ records

    fn note(&mut self) -> [u8; 8] {
        let mut note = *b"--------";
        for byte in note.iter_mut() {
            match self.scene.notes {
                0 => {}
                1 => *byte = self.chance.of(&[32, 33, 125, 126]),
                _ => *byte = self.chance.number(32, 126) as u8,
            }
        }
        note
    }

    fn put(&mut self, letter: u8, place: u32, length: u32, value: u32) {
        if self.left == 0 {
            return;
        }
        self.left -= 1;
        self.bytes.extend([letter, place as u8]);
        self.bytes.extend((length as u16).to_le_bytes());
        self.bytes.extend(value.to_le_bytes());
        let note = self.note();
        self.bytes.extend(note);
    }

    // ------------------------------------------------------------ choosing

    // A place that the guess says is so, if any.
    fn place(&mut self, is: impl Fn(&Guess) -> bool) -> Option<u32> {
        let found: Vec<u32> = (0..64).filter(|p| is(&self.guesses[*p as usize])).collect();
        if found.is_empty() {
            None
        } else {
            Some(self.chance.of(&found))
        }
    }

    fn booked(&self) -> u32 {
        self.guesses.iter().map(|g| g.rate).sum()
    }

    fn any_waiting(&self) -> bool {
        self.guesses.iter().any(|g| g.waiting > 0)
    }

    fn divisor(&mut self, low: u32, high: u32) -> Option<u32> {
        let from = self.divisors.partition_point(|d| *d < low);
        let to = self.divisors.partition_point(|d| *d <= high);
        if from >= to {
            return None;
        }
        let index = self.chance.number(from as u32, to as u32 - 1);
        Some(self.divisors[index as usize])
    }

    // A rate that fits into what isn't booked, if any does.
    fn rate(&mut self, unbooked: u32) -> Option<u32> {
        let share = LINK / self.scene.places.max(1);
        let equal = self.divisors[self.divisors.partition_point(|d| *d <= share) - 1];
        let wanted = match self.scene.rates {
            Rates::Equal => Some(equal),
            Rates::Near => self.divisor(equal / 8, equal),
            Rates::Any => self.divisor(1, unbooked),
            Rates::Uneven if unbooked == LINK => Some(LINK / 2),
            Rates::Uneven => self.divisor(equal / 64, equal / 2),
            Rates::Extreme => match self.chance.number(0, 2) {
                0 => Some(1),
                1 => Some(equal),
                _ => self.divisors.iter().rev().find(|d| **d <= unbooked).copied(),
            },
        };
        wanted.filter(|rate| *rate <= unbooked).or(self.divisor(1, unbooked))
    }

    fn length(&mut self) -> u32 {
        match self.scene.lengths {
            Lengths::Any => self.chance.number(1, 1_536),
            Lengths::Small => self.chance.number(1, 9),
            Lengths::Edges => self.chance.of(&[1, 2, 1_535, 1_536]),
            Lengths::Odd => 2 * self.chance.number(0, 767) + 1,
            Lengths::Same => self.scene.same,
        }
    }

    fn tag(&mut self) -> u32 {
        if self.chance.percent(2) {
            return self.chance.of(&[0, 1, 0x7fff_ffff, 0x8000_0000, u32::MAX]);
        }
        self.next_tag = self.next_tag.wrapping_add(1);
        self.next_tag
    }

    // ------------------------------------------------------------ calls meant well

    fn open(&mut self, place: u32) {
        let before = self.guesses[place as usize];
        let unbooked = LINK - (self.booked() - before.rate).min(LINK);
        let Some(rate) = self.rate(unbooked) else { return };
        self.put(b'O', place, 0, rate);
        let guess = &mut self.guesses[place as usize];
        // After an unsure close the old session may be the one that is open.
        guess.open = Open::Yes;
        guess.rate = before.rate.max(rate);
    }

    fn close(&mut self, place: u32) {
        self.put(b'C', place, 0, 0);
        self.guesses[place as usize].open = Open::Unsure;
    }

    fn arrive(&mut self, place: u32) {
        let (length, tag) = (self.length(), self.tag());
        self.put(b'A', place, length, tag);
        let guess = &mut self.guesses[place as usize];
        guess.waiting = (guess.waiting + 1).min(32);
    }

    fn report(&mut self, place: u32, good: bool) {
        self.put(if good { b'G' } else { b'B' }, place, 0, 0);
        self.guesses[place as usize].good = good;
    }

    // Who sends isn't known here; any place that could is guessed.
    fn turn(&mut self) {
        self.put(b'T', 0, 0, 0);
        if let Some(place) = self.place(|g| g.good && g.waiting > 0) {
            self.guesses[place as usize].waiting -= 1;
        }
    }

    // ------------------------------------------------------------ wrong calls

    // Any rate, length and place, wrong more often than not.
    fn odd_rate(&mut self) -> u32 {
        let any = self.chance.number(0, u32::MAX);
        let divisor = self.divisor(1, LINK).unwrap();
        self.chance.of(&[0, 1, 17, 720_719, LINK, 720_721, 1_441_440, u32::MAX, any, divisor])
    }

    fn odd_length(&mut self) -> u32 {
        self.chance.of(&[0, 0, 1, 1_536, 1_537, 1_537, 2_000, 65_535])
    }

    fn high_place(&mut self) -> u32 {
        let any = self.chance.number(64, 255);
        self.chance.of(&[64, 65, 127, 128, 255, any])
    }

    fn wrong(&mut self) {
        let (length, rate, tag) = (self.odd_length(), self.odd_rate(), self.tag());
        let other = self.chance.of(b"CAGB");
        let other_length = if other == b'A' { length } else { 0 };
        let other_tag = if other == b'A' { tag } else { 0 };
        match self.chance.number(0, 9) {
            // A place above 63.
            0 => {
                let place = self.high_place();
                match self.chance.percent(30) {
                    true => self.put(b'O', place, 0, rate),
                    false => self.put(other, place, other_length, other_tag),
                }
            }
            // Opening an open place.
            1 => {
                let Some(place) = self.place(|g| g.open == Open::Yes) else { return };
                self.put(b'O', place, 0, rate);
            }
            // Another call on a place that isn't open.
            2 => {
                let Some(place) = self.place(|g| g.open == Open::No) else { return };
                self.put(other, place, other_length, other_tag);
            }
            // A rate out of the tariff.
            3 => {
                let Some(place) = self.place(|g| g.open == Open::No) else { return };
                if LINK % rate.max(1) != 0 || rate == 0 {
                    self.put(b'O', place, 0, rate);
                }
            }
            // A rate too many: the next one above what isn't booked, or the whole link.
            4 => {
                let Some(place) = self.place(|g| g.open == Open::No) else { return };
                let unbooked = LINK - self.booked().min(LINK);
                let next = self.divisors.iter().find(|d| **d > unbooked).copied();
                let Some(next) = next else { return };
                let rate = self.chance.of(&[next, LINK]);
                self.put(b'O', place, 0, rate);
                // The guess may be too high and the place open now.
                self.put(b'C', place, 0, 0);
            }
            // Closing an active session.
            5 => {
                let Some(place) = self.place(|g| g.waiting > 0) else { return };
                self.close(place);
                self.open(place);
            }
            // Closing a session that has just sent, or hasn't.
            6 => {
                let Some(place) = self.place(|g| g.open == Open::Yes && g.waiting < 2) else {
                    return;
                };
                self.close(place);
            }
            // A frame of an odd length, at a full queue too.
            7 => {
                let Some(place) = self.place(|g| g.open == Open::Yes) else { return };
                self.put(b'A', place, length, tag);
            }
            8 => {
                let Some(place) = self.place(|g| g.waiting >= 30) else { return };
                if self.chance.percent(50) {
                    self.put(b'A', place, length, tag);
                } else {
                    self.arrive(place);
                }
            }
            // A turn that may find nobody.
            _ => self.turn(),
        }
    }

    // ------------------------------------------------------------ scenes

    fn begin(&mut self, profile: Profile) {
        let places = self.chance.number(profile.places.0, profile.places.1);
        let waiting = self.chance.number(profile.waiting.0, profile.waiting.1);
        let report = self.chance.number(profile.report.0, profile.report.1);
        let bad = self.chance.number(profile.bad.0, profile.bad.1);
        let wave = self.chance.of(&[0, 4, 16, 64]) * places as u64;
        let rates = self.chance.of(profile.rates);
        let lengths = self.chance.of(profile.lengths);
        let any = self.chance.number(1, 1_536);
        let same = self.chance.of(&[1, 1_536, 256, any, any, any]);
        let notes = self.chance.number(0, 2);
        self.scene =
            Scene { profile, places, waiting, report, bad, wave, rates, lengths, same, notes };
        self.next_tag = self.next_tag.wrapping_add(self.chance.number(0, 1_000_000));
        // Open until there are so many; which places, chance says.
        for _ in 0..64 {
            let open = self.guesses.iter().filter(|g| g.open == Open::Yes).count() as u32;
            if open >= places {
                break;
            }
            if let Some(place) = self.place(|g| g.open != Open::Yes) {
                self.open(place);
            }
        }
    }

    fn step(&mut self) {
        let scene = self.scene;
        let aim = scene.waiting;
        let room = self.place(|g| g.open == Open::Yes && g.waiting < aim).is_some();
        let arrive = if room { scene.profile.arrive } else { 2 };
        let turn = if self.any_waiting() { scene.profile.turn } else { 2 };
        let (arrive, turn) = match self.left.checked_div(scene.wave) {
            None => (arrive, turn),
            Some(waves) if waves % 2 == 0 => (arrive, turn / 4 + 1),
            Some(_) => (arrive / 4 + 1, turn),
        };
        let weights = [
            arrive,
            turn,
            scene.report,
            scene.profile.close,
            scene.profile.wrong,
            scene.profile.blackout,
            scene.profile.burst,
            scene.profile.settle,
        ];
        match self.chance.weighted(&weights) {
            0 => {
                let unsure = self.chance.percent(3);
                let place = match unsure {
                    true => self.place(|g| g.open != Open::No),
                    false if room => self.place(|g| g.open == Open::Yes && g.waiting < aim),
                    false => self.place(|g| g.open == Open::Yes),
                };
                if let Some(place) = place {
                    self.arrive(place);
                }
            }
            1 => self.turn(),
            2 => {
                let good = !self.chance.percent(scene.bad);
                if let Some(place) = self.place(|g| g.open == Open::Yes) {
                    self.report(place, good);
                }
            }
            3 => self.rebook(),
            4 => self.wrong(),
            5 => self.blackout(),
            6 => self.burst(),
            _ => self.settle(),
        }
    }

    // Close a session that may be inactive, or open a place, or both.
    fn rebook(&mut self) {
        if self.chance.percent(40) {
            if let Some(place) = self.place(|g| g.open == Open::Unsure) {
                self.open(place);
            } else if let Some(place) = self.place(|g| g.open == Open::No) {
                self.open(place);
            }
            return;
        }
        let Some(place) = self.place(|g| g.open == Open::Yes && g.waiting == 0) else { return };
        self.close(place);
        if self.chance.percent(70) {
            self.open(place);
        }
    }

    fn set_channels(&mut self, good: bool) {
        for place in 0..64 {
            let guess = self.guesses[place as usize];
            if guess.open == Open::Yes && guess.good != good {
                self.report(place, good);
            }
        }
    }

    fn blackout(&mut self) {
        self.set_channels(false);
        for _ in 0..self.chance.number(1, 12) {
            match self.chance.number(0, 3) {
                0 => {
                    if let Some(place) = self.place(|g| g.open == Open::Yes) {
                        self.arrive(place);
                    }
                }
                _ => self.turn(),
            }
        }
        self.set_channels(true);
    }

    fn burst(&mut self) {
        let Some(place) = self.place(|g| g.open == Open::Yes) else { return };
        for _ in 0..self.chance.number(20, 34) {
            self.arrive(place);
        }
    }

    // Every channel is mended, wherever a session may be, every frame leaves, and some
    // turns more, since the guess may be too low.
    fn send_all(&mut self, more: u32) {
        for place in 0..64 {
            let guess = self.guesses[place as usize];
            if guess.open != Open::No && (!guess.good || guess.open == Open::Unsure) {
                self.report(place, true);
            }
        }
        while self.any_waiting() && self.left > 0 {
            self.turn();
        }
        for _ in 0..self.chance.number(0, 6) + more {
            self.turn();
        }
    }

    // One session, often that of the highest rate, has a frame and a bad channel while
    // the others send a few each. Then it sends and departs.
    fn settle(&mut self) {
        self.send_all(0);
        let highest = self.guesses.iter().map(|g| g.rate).max().unwrap();
        let any = self.chance.percent(20);
        let owed = self.place(|g| g.open == Open::Yes && (any || g.rate == highest));
        let Some(owed) = owed else { return };
        self.report(owed, false);
        self.arrive(owed);
        for place in 0..64 {
            if place != owed && self.guesses[place as usize].open == Open::Yes {
                // The first goes in a turn of its own.
                for _ in 0..self.chance.number(1, 3) {
                    self.arrive(place);
                }
            }
        }
        let waiting: u32 = self.guesses.iter().map(|g| g.waiting).sum();
        for _ in 0..self.chance.number(waiting * 3 / 4, waiting + 1) {
            self.turn();
        }
        self.report(owed, true);
        for _ in 0..self.chance.number(1, 4) {
            self.turn();
        }
    }

    // Nobody active any more, then close most places.
    fn drain(&mut self) {
        let open = self.guesses.iter().filter(|g| g.open != Open::No).count() as u32;
        self.send_all(open / 2);
        let stay = self.chance.of(&[0, 0, 30, 80]);
        for place in 0..64 {
            let guess = self.guesses[place as usize];
            if guess.open != Open::No && !self.chance.percent(stay) {
                self.put(b'C', place, 0, 0);
                self.guesses[place as usize] = SHUT;
            }
        }
    }

    fn play(&mut self, name: &str) {
        while self.left > 0 {
            let profile = match PROFILES.iter().find(|p| p.name == name) {
                Some(profile) => *profile,
                None => self.chance.of(&PROFILES),
            };
            self.begin(profile);
            for _ in 0..self.chance.number(50, 60 * self.scene.places + 200) {
                self.step();
            }
            if self.chance.percent(profile.drain) {
                self.drain();
            }
        }
    }

    // ------------------------------------------------------------ damage

    // One good record of this letter.
    fn any(&mut self, letter: u8) {
        let (length, value) = (self.length(), self.tag());
        self.left = 1;
        match letter {
            b'O' => self.put(letter, 1, 0, value),
            b'A' => self.put(letter, 1, length, value),
            b'T' => self.put(letter, 0, 0, 0),
            _ => self.put(letter, 1, 0, 0),
        }
    }

    fn damage(&mut self) {
        let start = self.bytes.len();
        let letter = self.chance.of(b"OCAGBT");
        self.any(letter);
        let cut = self.chance.percent(30);
        if self.chance.percent(40) {
            self.bytes[start] = self.chance.of(&[0, b'N', b'S', b'U', b'a', b't', b'?', 255]);
        }
        if self.chance.percent(40) {
            let unused: &[usize] = match letter {
                b'O' => &[2, 3],
                b'A' => &[],
                b'T' => &[1, 2, 3, 4, 5, 6, 7],
                _ => &[2, 3, 4, 5, 6, 7],
            };
            if !unused.is_empty() {
                let byte = start + self.chance.of(unused);
                self.bytes[byte] = self.chance.of(&[1, 32, 128, 255]);
            }
        }
        if self.chance.percent(60) {
            let byte = start + self.chance.number(8, 15) as usize;
            self.bytes[byte] = self.chance.of(&[0, 9, 10, 13, 31, 127, 128, 255]);
        }
        if cut {
            let stays = self.chance.number(1, 15) as usize;
            self.bytes.truncate(start + stays);
        } else if self.chance.percent(50) {
            // Nothing after the damage may be played.
            self.left = self.chance.number(1, 20) as u64;
            self.play("mixed");
        }
    }

    fn fault(&mut self, index: u64) {
        let letter = b"OCAGBT"[(index % 6) as usize];
        let what = (index / 6 % 31) as usize;
        let second = index / 6 / 31 % 2 == 1;
        self.left = 2;
        self.put(b'O', 1, 0, 720);
        self.put(b'A', 1, 100, 7);
        let start = self.bytes.len();
        self.any(letter);
        if what < 15 {
            self.bytes.truncate(start + what + 1);
            return;
        }
        let byte = what - 15;
        self.bytes[start + byte] = match byte {
            0 => letter + if second { 32 } else { 128 },
            1..=7 => self.bytes[start + byte] | if second { 1 } else { 128 },
            _ => 31 + if second { 96 } else { 0 },
        };
        self.any(b'T');
    }

    fn sample(&mut self) {
        self.left = 14;
        self.put(b'O', 0, 0, 360_360);
        self.put(b'O', 1, 0, 240_240);
        self.put(b'A', 0, 100, 1);
        self.put(b'A', 0, 100, 2);
        self.put(b'A', 1, 101, 3);
        self.put(b'A', 1, 50, 4);
        self.put(b'B', 0, 0, 0);
        self.put(b'T', 0, 0, 0);
        self.put(b'G', 0, 0, 0);
        self.put(b'T', 0, 0, 0);
        self.put(b'T', 0, 0, 0);
        self.put(b'T', 0, 0, 0);
        self.put(b'T', 0, 0, 0);
        self.put(b'C', 1, 0, 0);
    }
}

fn main() -> io::Result<()> {
    let words: Vec<String> = std::env::args().collect();
    let [_, seed, records, name] = words.as_slice() else {
        eprintln!("generate SEED RECORDS PROFILE");
        exit(2)
    };
    let (Ok(seed), Ok(records)) = (seed.parse::<u64>(), records.parse::<u64>()) else {
        eprintln!("generate: seed and records are numbers");
        exit(2)
    };
    let mut writer = Writer::new(seed, records);
    match name.as_str() {
        "sample" => writer.sample(),
        "faults" => writer.fault(seed),
        "damaged" => {
            writer.left = writer.chance.next() % (records + 1);
            writer.play("mixed");
            writer.damage();
        }
        name if name == "mixed" || PROFILES.iter().any(|p| p.name == name) => writer.play(name),
        _ => {
            eprintln!("generate: no such profile");
            exit(2)
        }
    }
    io::stdout().lock().write_all(&writer.bytes)
}
