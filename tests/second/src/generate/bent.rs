//! Lines that are nearly forms: bent numbers, names, brackets and lengths.

use super::Script;
use crate::postings::Call;

/// Numbers and what is nearly one. Some would pass if cut to 8, 16 or 32 bits.
const EDGES: &[&str] = &[
    "0",
    "1",
    "2",
    "3",
    "4",
    "5",
    "7",
    "8",
    "9",
    "15",
    "16",
    "17",
    "63",
    "64",
    "65",
    "127",
    "128",
    "255",
    "256",
    "257",
    "499",
    "500",
    "501",
    "627",
    "1199",
    "1200",
    "1201",
    "2013",
    "2014",
    "2015",
    "2016",
    "2023",
    "2024",
    "2025",
    "2026",
    "2027",
    "2037",
    "2038",
    "2039",
    "4999",
    "5000",
    "5001",
    "65535",
    "65536",
    "67550",
    "99999",
    "100000",
    "100001",
    "999999",
    "1000000",
    "1000001",
    "4294967295",
    "4294967296",
    "4294967297",
    "4294969310",
    "25000000000",
    "200000000000",
    "200000000001",
    "99999999999",
    "999999999998",
    "999999999999",
    "1000000000000",
    "9999999999999",
    "9007199254740993",
    "18446744073709551615",
    "18446744073709551616",
    "18446744073709551617",
    "100000000000000000000000000000",
    "00",
    "01",
    "07",
    "02014",
    "000000000000",
    "000000000001",
    "0000000000000",
    "",
    "-0",
    "-1",
    "+1",
    "1.0",
    "1.",
    ".5",
    "1e3",
    "0x1",
    "1_000",
    "1,000",
    " 1",
    "1 ",
    "1 1",
    "one",
    "١",
    "1\0",
    "(1)",
    "1)",
    "(",
];

const NAMES: &[&str] = &[
    "maker", "set", "year", "use", "edition", "family", "fcl", "cf", "volume", "life", "from",
    "to", "vintage", "mg", "file", "small", "amend", "close", "trade", "apply", "retire", "cover",
    "fresh", "list", "MAKER", "Maker", "make", "makers", "editions", "", "0", "ok", "no",
];

/// A form as text that can be bent.
pub(super) struct Bent {
    pub(super) name: String,
    pub(super) fields: Vec<(String, String)>,
}

impl Bent {
    pub(super) fn of(call: &Call) -> Self {
        let (name, fields) = call.form();
        Bent {
            name: name.into(),
            fields: fields
                .iter()
                .map(|(field, number)| (field.to_string(), number.to_string()))
                .collect(),
        }
    }

    pub(super) fn text(&self) -> String {
        let mut text = format!("({}", self.name);
        for (field, number) in &self.fields {
            text += &format!(" ({field} {number})");
        }
        text + ")"
    }
}

impl Script {
    /// One to three numbers replaced by edges.
    pub(super) fn edges(&mut self) {
        let mut form = Bent::of(&self.some_call());
        for _ in 0..self.rng.between(1, 3) {
            let at = self.rng.index(form.fields.len());
            let edge = self.rng.pick(EDGES).copied().unwrap_or_default();
            if let Some((_, number)) = form.fields.get_mut(at) {
                *number = edge.into();
            }
        }
        self.say_text(form.text());
    }

    /// A form that is right but for its length, around 160 bytes.
    pub(super) fn long_numbers(&mut self) {
        let Some((form, figures)) = self.plausible_figures() else {
            return self.long_line();
        };
        let mut form = Bent::of(&form(figures));
        let length = self.rng.between(157, 164) as usize;
        // The maker, the set, the year, the use or the edition is refused.
        let first = self.rng.index(5);
        for at in (first..form.fields.len()).chain(0..first) {
            let missing = length.saturating_sub(form.text().len());
            if let Some((_, number)) = form.fields.get_mut(at) {
                let more = missing.min(12usize.saturating_sub(number.len()));
                if more > 0 && number == "0" {
                    *number = "1".into();
                }
                *number += &"9".repeat(more);
            }
        }
        self.say_text(form.text());
    }

    /// A form with its brackets, spaces, names or fields bent.
    pub(super) fn near_form(&mut self) {
        let mut form = Bent::of(&self.some_call());
        let (one, other) = (
            self.rng.index(form.fields.len()),
            self.rng.index(form.fields.len()),
        );
        let name = self.rng.pick(NAMES).copied().unwrap_or_default();
        let bend = self.rng.below(10);
        match bend {
            0 => form.fields.swap(one, other),
            1 => drop(form.fields.remove(one)),
            2 => form.fields[one].0 = name.into(),
            3 => form.name = name.into(),
            4 => {
                let field = form.fields[one].clone();
                form.fields.insert(other, field);
            }
            5 => form.fields.push((name.into(), "1".into())),
            _ => {}
        }
        let mut text = form.text();
        if bend >= 6 {
            text = self.bent_text(text);
        }
        self.say_text(text);
    }

    fn bent_text(&mut self, text: String) -> String {
        match self.rng.below(22) {
            0 => text + " ",
            1 => text + "\r",
            2 => text + "\t",
            3 => text + ")",
            4 => text + "\0",
            5 => format!(" {text}"),
            6 => format!("({text})"),
            7 => format!("({text}"),
            8 => format!("\u{feff}{text}"),
            9 => format!("{text}{text}"),
            10 => text.to_uppercase(),
            11 => text.replace(' ', "  "),
            12 => text.replacen(' ', "\t", 1),
            13 => text.replace(") (", ")("),
            14 => text.replacen(" (", "  (", 1),
            15 => text.replace("))", ") )"),
            16 => text.replace('(', "( "),
            17 => text.replace(['(', ')'], ""),
            18 => text.replace('(', "[").replace(')', "]"),
            19 => text + "; comment",
            20 => String::new(),
            _ => text[..text.len() - 1].into(),
        }
    }

    /// A form with one or two bytes lost, doubled, replaced or put in.
    pub(super) fn bytes_changed(&mut self) {
        let mut line = self.some_call().to_string().into_bytes();
        for _ in 0..self.rng.between(1, 2) {
            let at = self.rng.index(line.len());
            let byte = self.some_byte();
            match self.rng.below(4) {
                0 => drop(line.remove(at)),
                1 => line.insert(at, line[at]),
                2 => line[at] = byte,
                _ => line.insert(at, byte),
            }
        }
        self.say_bytes(&line);
    }

    /// Lines of a length near the limit or far above it.
    pub(super) fn long_line(&mut self) {
        let lengths: [usize; 9] = [158, 159, 160, 161, 162, 163, 320, 321, 5_000];
        let mut length = self.rng.pick(&lengths).copied().unwrap_or(161);
        if self.rng.once_in(100) {
            length = 70_000;
        }
        let form = self.some_call().to_string().into_bytes();
        let filler = match self.rng.below(3) {
            0 => b' ',
            1 => b'0',
            _ => self.some_byte(),
        };
        let mut line = vec![filler; length.saturating_sub(form.len())];
        if self.rng.once_in(2) {
            line.splice(0..0, form);
        } else {
            line.extend(form);
        }
        self.say_bytes(&line);
    }

    pub(super) fn binary(&mut self) {
        let length = self.rng.below(200);
        let line: Vec<u8> = (0..length).map(|_| self.some_byte()).collect();
        self.say_bytes(&line);
    }

    /// Any byte but a line feed.
    fn some_byte(&mut self) -> u8 {
        let byte = match self.rng.below(8) {
            0 => 0,
            1 => 0xff,
            2 => self.rng.pick(b"()0 123456789\r\t").copied().unwrap_or(0),
            _ => self.rng.draw() as u8,
        };
        if byte == b'\n' {
            b'\r'
        } else {
            byte
        }
    }

    pub(super) fn say_text(&mut self, text: String) {
        self.say_bytes(text.as_bytes());
    }
}
