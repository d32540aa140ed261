//! Prints a sheet of one million mixed lines, the same each time. With any argument it also tells on
//! standard error what the sheet is like.

#![forbid(unsafe_code)]

use calls::words::{any_strike, now, used};
use calls::{Answer, Call, Random, StrikeBook};
use hand::{known, Known};
use std::io::{BufWriter, Result, Write};

const LINES: u32 = 1_000_000;

/// A class that never has a close.
const UNPRICED: u32 = 9_000;

/// The book that the lines so far have made, and what is aimed at.
struct Writer {
    random: Random,
    run: Vec<u32>,
    second: Vec<u32>,
    /// The classes, with their closes and the closes that they tend to.
    classes: Vec<(u32, u32, u32)>,
    line: String,
}

impl Writer {
    fn class(&mut self) -> u32 {
        self.random.pick(&self.classes).0
    }

    /// A month that is usually listed: the next ones, quarters and Januaries.
    fn month(&mut self) -> u32 {
        let now = now(&self.run);
        let next = now + 1 + self.random.below(3);
        let quarter = (now + 3) / 3 * 3 + 3 * self.random.below(3);
        let january = (now + 9) / 12 * 12 + 12 * (1 + self.random.below(2));
        self.random
            .pick(&[next, next, next, quarter, quarter, january])
            .min(1_023)
    }

    /// A strike that stands: its class, month and h.
    fn standing(&mut self) -> Option<(u32, u32, u32)> {
        any_strike(&mut self.random, &self.run)
    }

    /// A series that may be listed.
    fn permitted(&mut self) -> Option<(u32, u32, u32)> {
        let (c, m) = (self.class(), self.month());
        let answer = known::list_permitted(&self.run, &mut self.second, &mut [], c, m);
        if answer.number != 0 || answer.value == 0 {
            return None;
        }
        // Two draws, so that the middle comes more often.
        let count = answer.value;
        let place = (self.random.below(count) + self.random.below(count)) / 2;
        Some((c, m, self.second[place as usize]))
    }

    /// A series about a close, permitted or not.
    fn any_series(&mut self) -> (u32, u32, u32) {
        let (c, close, _) = self.random.pick(&self.classes);
        let middle = close / 50;
        let h = middle / 2 + self.random.below(middle + 12);
        let step = self.random.pick(&[1, 2, 2, 5, 10]);
        (c, self.month(), (h / step * step).clamp(1, 19_999))
    }

    fn write(&mut self, call: Call) -> Answer {
        self.line = call.line();
        Known(&mut self.run, &mut []).make(&call, &mut self.second)
    }

    /// A line that is no call.
    fn malformed(&mut self) -> Answer {
        let (c, m, h) = self.any_series();
        self.line = match self.random.below(10) {
            0 => String::new(),
            1 => format!("L {c} {m}"),
            2 => format!("J {c} {m} {h} "),
            3 => format!("L {c}  {m} {h}"),
            4 => format!("C {c} 0{h}"),
            5 => format!("l {c} {m} {h}"),
            6 => format!("X {c} {m} {h} 1"),
            7 => format!("K {c}"),
            8 => format!("C {c} {h}.50"),
            _ => format!("I {c} {m} {h} yes no"),
        };
        Known(&mut self.run, &mut []).malformed()
    }

    /// A number beyond its limits.
    fn beyond(&mut self) -> Answer {
        let (c, m, h) = self.any_series();
        match self.random.below(5) {
            0 => self.write(Call::L {
                c,
                m,
                h: 20_000 + h,
            }),
            1 => self.write(Call::J { c, m: 1_024 + m, h }),
            2 => self.write(Call::C { c, p: 1_000_000 }),
            3 => self.write(Call::D { c, p: 4, d: 1 }),
            _ => self.write(Call::I {
                c,
                m,
                h,
                a: 1,
                b: 2,
            }),
        }
    }

    /// The next close of a class: a few percent away, drawn to where it began.
    fn close(&mut self) -> Answer {
        let place = self.random.below(self.classes.len() as u32) as usize;
        let (c, close, aim) = self.classes[place];
        let toward = (3 * close + aim) / 4;
        let span = toward / 8 + 2;
        let close = (toward + self.random.below(span) - span / 2).clamp(100, 30_000);
        self.classes[place].1 = close;
        self.write(Call::C { c, p: close })
    }

    /// The day's low and high of a class: a few percent from its close, now and then on one side of it.
    fn low_high(&mut self) -> Answer {
        let (c, close, _) = self.random.pick(&self.classes);
        let span = close / 16 + 2;
        let (below, above) = (self.random.below(span), self.random.below(span));
        let (low, high) = match self.random.below(40) {
            0 => (close + below + 1, close + span),
            1 => (close - span / 2, close - above / 2 - 1),
            _ => (close - below, close + above),
        };
        self.write(Call::H { c, low, high })
    }

    fn designate(&mut self) -> Answer {
        let (c, close, _) = self.random.pick(&self.classes);
        if close <= 500 && self.random.below(2) == 0 {
            let d = self.random.pick(&[0, 1, 1, 1, 2, 2]);
            return self.write(Call::D { c, p: 2, d });
        }
        let d = self.random.pick(&[0, 1, 1, 1, 1, 2, 2]);
        let p = self.random.pick(&[1, 1, 3]);
        self.write(Call::D { c, p, d })
    }

    fn volume(&mut self) -> Answer {
        let (c, _, aim) = self.random.pick(&self.classes);
        let n = self.random.pick(&[400, 1_200, 5_000, 20_000]) + self.random.below(1_000) + aim / 8;
        self.write(Call::V { c, n })
    }

    /// One more line. The book is let grow to `room` words, and beyond by half the strikes only.
    fn more(&mut self, room: usize) -> Answer {
        let full = used(&self.run) > room;
        match self.random.below(1_000) {
            0..=9 => self.malformed(),
            10..=15 => self.beyond(),
            16..=22 => {
                // A class that isn't open, one that is, one that never has a close; and strikes that
                // mostly don't stand.
                let (open, m, h) = self.any_series();
                let c = 1 + self.random.below(16_383);
                match self.random.below(7) {
                    0 => self.write(Call::L { c, m, h }),
                    1 => self.write(Call::C { c, p: 50 * h }),
                    2 => self.write(Call::O { c: open }),
                    3 => self.write(Call::X { c: open, m, h }),
                    4 => self.write(Call::I {
                        c: open,
                        m,
                        h,
                        a: 1,
                        b: 1,
                    }),
                    5 => self.write(Call::H {
                        c: UNPRICED,
                        low: 50 * h,
                        high: 50 * h,
                    }),
                    _ => self.write(Call::J { c: UNPRICED, m, h }),
                }
            }
            23..=72 => {
                let (c, m) = (self.class(), self.month());
                self.write(Call::A { c, m })
            }
            73..=152 => self.close(),
            153..=182 => self.volume(),
            183..=202 => self.designate(),
            203..=217 => {
                let c = self.class();
                self.write(Call::R { c })
            }
            218..=377 => {
                let Some((c, m, h)) = self.standing() else {
                    return self.close();
                };
                let marks = [(0, 0), (0, 0), (0, 0), (1, 0), (0, 1), (1, 1)];
                let (a, b) = self.random.pick(&marks);
                self.write(Call::I { c, m, h, a, b })
            }
            378..=457 => {
                let (c, m, h) = self.any_series();
                self.write(Call::J { c, m, h })
            }
            458..=537 => self.low_high(),
            538..=577 => {
                let (c, m, h) = self.permitted().unwrap_or((self.classes[0].0, 1_023, 50));
                self.write(Call::J { c, m, h })
            }
            578..=637 => {
                let (c, m, h) = self.any_series();
                self.write(Call::L { c, m, h })
            }
            n => {
                if n > 900 || full && n > 740 {
                    let Some((c, m, h)) = self.standing() else {
                        return self.volume();
                    };
                    return self.write(Call::X { c, m, h });
                }
                let Some((c, m, h)) = self.permitted() else {
                    return self.close();
                };
                self.write(Call::L { c, m, h })
            }
        }
    }
}

fn main() -> Result<()> {
    let mut output = BufWriter::with_capacity(1 << 16, std::io::stdout().lock());
    let mut writer = Writer {
        random: Random::new(0x0005_7417_e800_0001),
        run: vec![0; 4_096],
        second: vec![0; 512],
        classes: Vec::new(),
        line: String::new(),
    };
    hand::fresh(&mut writer.run);
    let mut drawn = [0u32; 17];
    let mut letters = [0u32; 128];
    let (mut used_sum, mut nearly_full, mut permitted) = (0, 0, 0u64);
    let mut waiting = Vec::new();
    // 48 classes: some below $5, most below $50, some above.
    for place in 0..48 {
        let c = 1 + place * 340 + writer.random.below(340);
        let aim = match place % 8 {
            0 => 100 + writer.random.below(400),
            1..=5 => 600 + writer.random.below(4_600),
            _ => 5_000 + writer.random.below(25_000),
        };
        writer.classes.push((c, aim, aim));
        waiting.push(Call::O { c });
        waiting.push(Call::C { c, p: aim });
        let n = 500 + writer.random.below(3_000);
        waiting.push(Call::V { c, n });
        if aim < 5_000 && place % 3 != 0 {
            waiting.push(Call::D {
                c,
                p: 1,
                d: 1 + place % 2,
            });
        }
        if aim <= 500 {
            waiting.push(Call::D {
                c,
                p: 2,
                d: 1 + place % 2,
            });
        }
        if (2_000..10_000).contains(&aim) && place % 2 == 0 {
            waiting.push(Call::D { c, p: 3, d: 1 });
        }
    }
    waiting.push(Call::O { c: UNPRICED });
    waiting.reverse();
    for n in 0..LINES {
        let month = now(&writer.run);
        let answer = if let Some(call) = waiting.pop() {
            writer.write(call)
        } else if n % 4_000 == 3_999 {
            writer.write(Call::M { m: month + 1 })
        } else if n % 50_000 == 1_000 {
            let m = month.saturating_sub(1);
            writer.write(Call::M { m })
        } else {
            // Room that changes: now and then the book is let run full.
            let room = [3_600, 4_000, 3_800, 4_200][n as usize / 16_000 % 4];
            writer.more(room)
        };
        output.write_all(writer.line.as_bytes())?;
        output.write_all(b"\n")?;
        drawn[answer.number as usize] += 1;
        let letter = writer.line.bytes().next().unwrap_or(b'?');
        letters[letter as usize] += 1;
        if letter == b'A' && answer.number == 0 {
            permitted += u64::from(answer.value);
        }
        used_sum += used(&writer.run);
        nearly_full += u32::from(used(&writer.run) > 4_090);
    }
    output.flush()?;
    if std::env::args().len() > 1 {
        eprintln!(
            "words used, on average {}; lines with at most 5 words left {nearly_full}",
            used_sum / LINES as usize
        );
        eprintln!("drawn, 0 to 16: {drawn:?}");
        for (letter, count) in letters.iter().enumerate().filter(|(_, count)| **count > 0) {
            eprint!("{} {count}  ", letter as u8 as char);
        }
        eprintln!("\nstrikes written by A: {permitted}");
    }
    Ok(())
}
