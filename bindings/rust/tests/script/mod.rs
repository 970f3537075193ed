//! Carries out a stored script, records of 16 bytes, on areas of its own over the library's calls, and returns what is to be
//! printed: tools/README.md has the format. The scripts and the answers come from the models in tools/.

use rolwyddac::{Opening, Progress, Refusal, Route};
use std::fmt::Write;

/// The areas of one office, and how much of each is lent.
struct Office {
    source: Vec<u32>,
    memories: Vec<u32>,
    buffer: Vec<u32>,
    progress: Vec<u32>,
    status: Vec<u8>,
    grid: Vec<u32>,
    lent: [usize; 7],
}

impl Office {
    fn new() -> Office {
        Office {
            source: vec![0; 256],
            memories: vec![0; 1024],
            buffer: vec![0; 1792],
            progress: vec![0; 195],
            status: vec![0; 1792],
            grid: vec![0; 256],
            lent: [0; 7],
        }
    }

    /// Words of an area as lent: records are kept as words, since a script pokes single words.
    fn words(&mut self, area: usize) -> &mut [u32] {
        let n = self.lent[area];
        match area {
            1 => &mut self.source[..n],
            2 => &mut self.memories[..n],
            3 => &mut self.buffer[..n],
            4 => &mut self.progress[..n],
            _ => &mut self.grid[..n],
        }
    }

    /// The records of the words lent. A length of no whole records becomes one record less or more, as it is nearer to.
    fn records(&self) -> Vec<Progress> {
        let record = |w: &[u32]| Progress { finished: w[0], stage: w[1], sent: w[2] };
        let n = self.lent[4];
        let records = if n % 3 == 1 { n / 3 + 1 } else { n / 3 };
        self.progress[..3 * records].chunks_exact(3).map(record).collect()
    }

    fn store(&mut self, records: &[Progress]) {
        for (i, r) in records.iter().enumerate() {
            self.progress[3 * i..3 * i + 3].copy_from_slice(&[r.finished, r.stage, r.sent]);
        }
    }
}

fn fold(h: u32, x: u32) -> u32 {
    h.wrapping_mul(16777619).wrapping_add(x)
}

fn fold_words(h: u32, words: &[u32]) -> u32 {
    words.iter().fold(fold(h, words.len() as u32), |h, &x| fold(h, x))
}

fn drawn(x: u32) -> u32 {
    x.wrapping_mul(1664525).wrapping_add(1013904223)
}

/// The words of a fill by its rule, from a on.
fn filled(rule: u8, a: u32) -> impl FnMut() -> u32 {
    let mut x = a;
    move || {
        x = match rule {
            0 => x,
            1 => x.wrapping_add(1),
            _ => drawn(x),
        };
        if rule == 3 {
            x >> 30
        } else {
            x
        }
    }
}

struct Record<'a>(&'a [u8]);

impl Record<'_> {
    fn word(&self, at: usize) -> u32 {
        u32::from_le_bytes(self.0[at..at + 4].try_into().unwrap())
    }

    fn area(&self) -> usize {
        self.0[1] as usize
    }

    fn office(&self) -> usize {
        self.0[3] as usize
    }
}

pub struct Script {
    encoded: Vec<u8>,
    route: Route,
    offices: [Office; 2],
    engaged: Vec<u32>,
    engaged_lent: usize,
    hours: Vec<u32>,
    hours_lent: usize,
    printed: String,
}

impl Script {
    /// Carries out the whole script.
    pub fn run(script: &[u8]) -> String {
        let mut s = Script {
            encoded: vec![],
            route: Route::Direct,
            offices: [Office::new(), Office::new()],
            engaged: vec![0; 64],
            engaged_lent: 0,
            hours: vec![0; 1793],
            hours_lent: 0,
            printed: String::new(),
        };
        let mut at = 0;
        while at < script.len() {
            let record = Record(&script[at..at + 16]);
            at += 16;
            if record.0[0] == 2 {
                let n = record.word(4) as usize;
                s.encoded = script[at..at + n].to_vec();
                at += n.div_ceil(16) * 16;
            } else {
                s.carry_out(record);
            }
        }
        s.printed
    }

    fn carry_out(&mut self, record: Record) {
        let a = record.word(4);
        match record.0[0] {
            1 => self.begin(a),
            3 => self.lend(&record, a as usize),
            4 | 5 | 11 => self.change(&record),
            12 => self.route = if a == 0 { Route::Direct } else { Route::Indirect },
            _ => self.call(&record),
        }
    }

    fn begin(&mut self, case: u32) {
        writeln!(self.printed, "case {case}").unwrap();
        self.encoded.clear();
        self.route = Route::Direct;
        self.offices.iter_mut().for_each(|o| o.lent = [0; 7]);
        self.engaged_lent = 0;
        self.hours_lent = 0;
    }

    fn lend(&mut self, record: &Record, n: usize) {
        match record.area() {
            7 => self.engaged_lent = n,
            8 => self.hours_lent = n,
            area => self.offices[record.office()].lent[area] = n,
        }
    }

    fn change(&mut self, record: &Record) {
        let office = &mut self.offices[record.office()];
        if record.area() == 5 {
            let status = &mut office.status[..office.lent[5]];
            let mut words: Vec<u32> = status.iter().map(|&x| x.into()).collect();
            change(&mut words, record, &mut self.printed);
            status.iter_mut().zip(words).for_each(|(x, w)| *x = w as u8);
        } else {
            let words = match record.area() {
                7 => &mut self.engaged[..self.engaged_lent],
                8 => &mut self.hours[..self.hours_lent],
                area => office.words(area),
            };
            change(words, record, &mut self.printed);
        }
    }

    fn checksum(&self) -> u32 {
        let over = |h, o: &Office| {
            let h = fold_words(h, &o.source[..o.lent[1]]);
            let h = fold_words(h, &o.memories[..o.lent[2]]);
            let h = fold_words(h, &o.buffer[..o.lent[3]]);
            let h = fold_words(h, &o.progress[..o.lent[4]]);
            let h = o.status[..o.lent[5]].iter().fold(fold(h, o.lent[5] as u32), |h, &x| fold(h, x.into()));
            fold_words(h, &o.grid[..o.lent[6]])
        };
        fold_words(self.offices.iter().fold(2166136261, over), &self.engaged[..self.engaged_lent])
    }

    fn call(&mut self, record: &Record) {
        let (a, b) = (record.word(4), record.word(8));
        let (number, told) = match record.0[0] {
            10 => (self.sweep(record), String::new()),
            16 => (self.fresh_both(), String::new()),
            6 | 8 | 9 | 21 => (self.alone(record, a), String::new()),
            17..=19 | 22 => (self.for_office(record, a, b), String::new()),
            20 => self.view(a, b),
            23 => self.opens(a, record.word(12)),
            other => panic!("no record of kind {other}"),
        };
        let sum = self.checksum();
        let number = number.err().map_or(0, Refusal::number);
        writeln!(self.printed, "{number} {told}{sum:08x}").unwrap();
    }

    fn sweep(&mut self, record: &Record) -> Result<(), Refusal> {
        let o = &mut self.offices[record.office()];
        rolwyddac::sweep(&self.encoded, &o.source[..o.lent[1]], &mut o.grid[..o.lent[6]])
    }

    fn fresh_both(&mut self) -> Result<(), Refusal> {
        let (mut p, mut q) = (self.offices[0].records(), self.offices[1].records());
        let [f, s] = &mut self.offices;
        let answer = rolwyddac::fresh_both(
            &self.encoded,
            self.route,
            &f.source[..f.lent[1]],
            &mut f.memories[..f.lent[2]],
            &mut f.buffer[..f.lent[3]],
            &mut p,
            &mut f.status[..f.lent[5]],
            &s.source[..s.lent[1]],
            &mut s.memories[..s.lent[2]],
            &mut s.buffer[..s.lent[3]],
            &mut q,
            &mut s.status[..s.lent[5]],
            &mut self.engaged[..self.engaged_lent],
        );
        f.store(&p);
        s.store(&q);
        answer
    }

    /// A turn, a delivery or collecting: byte 3 says whose areas are lent, b is the office's number that the call is given.
    fn for_office(&mut self, record: &Record, a: u32, b: u32) -> Result<(), Refusal> {
        let own = record.office();
        let other = self.offices[1 - own].records();
        let mut records = self.offices[own].records();
        let o = &mut self.offices[own];
        let lent = o.lent;
        let (source, memories) = (&o.source[..lent[1]], &mut o.memories[..lent[2]]);
        let (buffer, status) = (&mut o.buffer[..lent[3]], &mut o.status[..lent[5]]);
        let engaged = &mut self.engaged[..self.engaged_lent];
        let hours = &self.hours[..self.hours_lent];
        let (e, r, c) = (&self.encoded, self.route, record.word(12));
        let answer = match record.0[0] {
            17 => {
                let own = &mut records;
                rolwyddac::tenant_turn(e, r, source, memories, buffer, own, status, engaged, &other, b, a)
            }
            22 => {
                let own = &mut records;
                rolwyddac::tenant_turn_at(e, r, source, memories, buffer, own, status, engaged, &other, hours, c, b, a)
            }
            18 => rolwyddac::tenant_deliver(e, r, source, memories, buffer, &records, status, engaged, &other, b, a),
            _ => {
                let grid = &mut o.grid[..lent[6]];
                rolwyddac::tenant_collect(e, r, source, memories, buffer, &records, status, engaged, &other, b, grid)
            }
        };
        o.store(&records);
        answer
    }

    /// A fresh start, a turn with hours, a delivery or collecting of one office alone.
    fn alone(&mut self, record: &Record, a: u32) -> Result<(), Refusal> {
        let mut records = self.offices[record.office()].records();
        let o = &mut self.offices[record.office()];
        let lent = o.lent;
        let (source, memories) = (&o.source[..lent[1]], &mut o.memories[..lent[2]]);
        let (buffer, status) = (&mut o.buffer[..lent[3]], &mut o.status[..lent[5]]);
        let hours = &self.hours[..self.hours_lent];
        let (e, r, c) = (&self.encoded, self.route, record.word(12));
        let answer = match record.0[0] {
            6 => rolwyddac::fresh(e, r, source, memories, buffer, &mut records, status),
            8 => rolwyddac::deliver(e, r, source, memories, buffer, &records, status, a),
            9 => rolwyddac::collect(e, r, source, memories, buffer, &records, status, &mut o.grid[..lent[6]]),
            _ => rolwyddac::turn_at(e, r, source, memories, buffer, &mut records, status, hours, c, a),
        };
        o.store(&records);
        answer
    }

    /// When a processor next opens: whether it does, and in how many minutes.
    fn opens(&mut self, processor: u32, minute: u32) -> (Result<(), Refusal>, String) {
        let hours = &self.hours[..self.hours_lent];
        let answer = rolwyddac::opens(&self.encoded, hours, minute, processor);
        let (opens, minutes) = match answer {
            Ok(Opening::OpensIn(minutes)) => (1, minutes),
            _ => (0, 0),
        };
        (answer.map(|_| ()), format!("{opens} {minutes} "))
    }

    /// A view: where the part begins, its length and a checksum of its words stand before that of the areas.
    fn view(&mut self, processor: u32, office: u32) -> (Result<(), Refusal>, String) {
        let [first, second] = &self.offices;
        let memories = [&first.memories[..first.lent[2]], &second.memories[..second.lent[2]]];
        let answer = rolwyddac::view_words(&self.encoded, memories[0], memories[1], office, processor);
        let [begin, length] = answer.map_or([0; 2], |viewed| [viewed.begin, viewed.length].map(|x| x as usize));
        let part = &memories[(office as usize).min(1)][begin..begin + length];
        let sum = part.iter().fold(2166136261, |h, &x| fold(h, x));
        let seen = rolwyddac::view(&self.encoded, memories[0], memories[1], office, processor);
        assert_eq!(seen.unwrap_or(&[]), part);
        (answer.map(|_| ()), format!("{begin} {length} {sum:08x} "))
    }
}

/// Fills, pokes or shows the words of an area.
fn change(words: &mut [u32], record: &Record, printed: &mut String) {
    let (a, b) = (record.word(4), record.word(8));
    match record.0[0] {
        4 => words.fill_with(filled(record.0[2], a)),
        5 => {
            if let Some(x) = words.get_mut(a as usize) {
                *x = b;
            }
        }
        _ => {
            words.iter().for_each(|x| write!(printed, "{x} ").unwrap());
            printed.push('\n');
        }
    }
}
