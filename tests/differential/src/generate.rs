//! Texts from one seed: from the grammar, damaged, exhaustively short, and the Rust's own examples.
pub use crate::grammar::{annotated, from_grammar, Grammar};

/// splitmix64.
#[derive(Clone)]
pub struct Random(pub u64);

impl Random {
    pub fn next(&mut self) -> u64 {
        self.0 = self.0.wrapping_add(0x9e37_79b9_7f4a_7c15);
        let mut z = self.0;
        z = (z ^ z >> 30).wrapping_mul(0xbf58_476d_1ce4_e5b9);
        z = (z ^ z >> 27).wrapping_mul(0x94d0_49bb_1331_11eb);
        z ^ z >> 31
    }

    pub fn below(&mut self, n: usize) -> usize {
        (self.next() % n as u64) as usize
    }

    pub fn chance(&mut self, one_in: usize) -> bool {
        self.below(one_in) == 0
    }

    pub fn pick<'a, T: ?Sized>(&mut self, list: &[&'a T]) -> &'a T {
        list[self.below(list.len())]
    }
}

// Damaged texts.

/// Words and numbers, runs of white space, and single bytes.
pub fn tokens(text: &[u8]) -> Vec<Vec<u8>> {
    let class = |c: u8| match c {
        b'a'..=b'z' | b'A'..=b'Z' | b'0'..=b'9' | b'_' => 1,
        b' ' | b'\n' | b'\r' | b'\t' => 2,
        0x80.. => 3,
        _ => 0,
    };
    let mut all: Vec<Vec<u8>> = Vec::new();
    for &c in text {
        match all.last_mut() {
            Some(last) if class(c) != 0 && class(*last.last().unwrap()) == class(c) => last.push(c),
            _ => all.push(vec![c]),
        }
    }
    all
}

const PIECES: [&str; 40] = [
    " ", "\n", "/", "*", "//", "/*", "*/", "/**", "//\n", "\r", "\u{c}", "\u{a0}", "\u{feff}", "\0", "{", "}", "(", ")", "[", "]", "<",
    ">", "=", ":", ";", ",", "\"", "\\", "\\r", "+", "-", "0", "0x", "18446744073709551616", "_", "READ", "shared ", "stable ", "default=",
    "optional ",
];

/// A text with up to three faults; `other` lends tokens.
pub fn damaged(random: &mut Random, text: &[u8], other: &[u8]) -> Vec<u8> {
    let mut text = text.to_vec();
    for _ in 0..1 + random.below(3) {
        text = if random.chance(2) { damage_tokens(random, &text, other) } else { damage_bytes(random, &text) };
    }
    text
}

fn damage_bytes(random: &mut Random, text: &[u8]) -> Vec<u8> {
    let mut text = text.to_vec();
    let at = random.below(text.len() + 1);
    let len = (1 + random.below(4)).min(text.len() - at);
    match random.below(7) {
        0 => drop(text.drain(at..at + len)),
        1 => drop(text.splice(at..at, text[at..at + len].to_vec())),
        2 if !text.is_empty() => {
            let (i, j) = (random.below(text.len()), random.below(text.len()));
            text.swap(i, j);
        }
        3 if at < text.len() => text[at] = random.next() as u8,
        4 if at < text.len() => text[at] ^= 0x20,
        5 => text.truncate(at),
        _ => drop(text.splice(at..at, random.pick(&PIECES).bytes())),
    }
    text
}

fn damage_tokens(random: &mut Random, text: &[u8], other: &[u8]) -> Vec<u8> {
    let mut here = tokens(text);
    let there = tokens(other);
    let at = random.below(here.len() + 1);
    match random.below(5) {
        0 if at < here.len() => drop(here.remove(at)),
        1 if at < here.len() => here.insert(at, here[at].clone()),
        2 if !here.is_empty() => {
            let (i, j) = (random.below(here.len()), random.below(here.len()));
            here.swap(i, j);
        }
        3 if at < here.len() && !there.is_empty() => here[at] = there[random.below(there.len())].clone(),
        _ if !there.is_empty() => {
            let from = random.below(there.len());
            let to = (from + 1 + random.below(4)).min(there.len());
            here.splice(at..at, there[from..to].iter().cloned());
        }
        _ => (),
    }
    here.concat()
}

/// Bytes in and around the sequences that UTF-8 allows, in a comment or bare.
pub fn not_utf8(random: &mut Random) -> Vec<u8> {
    const EDGES: [u8; 24] = [
        0x00, 0x7f, 0x80, 0x8f, 0x90, 0x9f, 0xa0, 0xbf, 0xc0, 0xc1, 0xc2, 0xdf, 0xe0, 0xe1, 0xec, 0xed, 0xee, 0xef, 0xf0, 0xf1, 0xf3, 0xf4,
        0xf5, 0xff,
    ];
    let mut text = random
        .pick(&["", "//", "enum E:t{}//", "endpoint 99999999999999999999", "endpoint 0{server cluster C{ram attribute a default=\""])
        .as_bytes()
        .to_vec();
    for _ in 0..1 + random.below(5) {
        text.push(EDGES[random.below(EDGES.len())]);
    }
    text
}

// Exhaustively short texts.

/// All sequences of at most so many tokens, between a front and an end.
pub struct Short {
    front: &'static str,
    tokens: &'static [&'static str],
    end: &'static str,
    most: usize,
}

pub const SHORT: [Short; 23] = [
    Short { front: "", tokens: &["/", "*", " ", "\n", "a"], end: "", most: 7 },
    Short { front: "", tokens: &["/", "*", " ", "\n", "a"], end: "enum E:t{}", most: 6 },
    Short { front: "enum E:t{", tokens: &["stable", "a", " ", "=", "1", ";"], end: "}", most: 6 },
    Short { front: "enum E:t{a=1[", tokens: &["b", "=", "\"c\"", ",", " ", "]"], end: "];}", most: 6 },
    Short { front: "enum E:t{a=1[b=\"", tokens: &["\"", "\\", "n", "r", "a"], end: "\"];}", most: 5 },
    Short { front: "enum E:t{a=", tokens: &["0", "x", "X", "f", "9"], end: ";}", most: 6 },
    Short { front: "enum E:t{a=", tokens: &["0", "0x", "1844674407370955161", "5", "6", "FFFFFFFFFFFFFFFF", " "], end: ";}", most: 4 },
    Short { front: "", tokens: &["stable", "shared", "enum", "bitmap", " ", "E", ":", "t", "{}"], end: "", most: 5 },
    Short {
        front: "",
        tokens: &["shared", "request", "RESPONSE", "response", "=1", "fabric_scoped", "struct S", " ", "{}"],
        end: "",
        most: 5,
    },
    Short { front: "", tokens: &["client", "server", "cluster", "internal", " ", "C", "=1", "{}", "endpoint", "0"], end: "", most: 5 },
    Short { front: "struct S{", tokens: &["optional", "OPTIONAL", "t", " ", "<5>", "[]", "=1", ";"], end: "}", most: 5 },
    Short { front: "struct S{", tokens: &["t", "<", "5", "99999999999999999999", ">", " ", "a=1;"], end: "}", most: 5 },
    Short {
        front: "cluster C=1{",
        tokens: &["attribute", "command", "t", " ", "=1;", "(", ")", ":R", "access(invoke:view)"],
        end: "}",
        most: 5,
    },
    Short {
        front: "cluster C=1{attribute ",
        tokens: &["readonly", "access", "()", "(read:manage)", " ", "t a", "=1", ";"],
        end: "}",
        most: 5,
    },
    Short { front: "cluster C=1{attribute access(", tokens: &["read", "WRITE", ":", "view", ",", " ", ")"], end: ") t a=1;}", most: 6 },
    Short {
        front: "cluster C=1{attribute access(",
        tokens: &["READ:view", "read:manage", "Write : operate", "write:administer", ",", " "],
        end: ") t a=1;}",
        most: 5,
    },
    Short {
        front: "cluster C=1{",
        tokens: &["info", "event", "access(read:view)", "e", " ", "=1", "{}", "fabric_sensitive"],
        end: "}",
        most: 5,
    },
    Short { front: "cluster C=1{", tokens: &["revision", "stable", "2", " ", ";", "/**d*/", "}"], end: "}", most: 5 },
    Short {
        front: "endpoint 0{",
        tokens: &["device type d=1", "binding", "server", "cluster", "C", ",version 1", " ", ";", "{", "}"],
        end: "}",
        most: 5,
    },
    Short {
        front: "endpoint 0{server cluster C{",
        tokens: &["ram", "attribute", "handle", "command", "emits", "event", "a", " ", ";"],
        end: "}}",
        most: 5,
    },
    Short {
        front: "endpoint 0{server cluster C{ram attribute a ",
        tokens: &["default", "=", "\"", "-", "+", "1", "true", " "],
        end: ";}}",
        most: 5,
    },
    Short {
        front: "endpoint 0{server cluster C{ram attribute a default=\"",
        tokens: &["\"", "\\", "r", "n", "x", ";"],
        end: "\";}}",
        most: 6,
    },
    Short {
        front: "cluster C=1{",
        tokens: &[
            "shared enum E:t{}", "SHARED struct S{}", "shared struct S{}", "}cluster C=2{", "}enum E:t{}cluster D=1{",
            "shared bitmap E:t{a=1;}",
        ],
        end: "}",
        most: 6,
    },
];

impl Short {
    /// About how many there are.
    pub fn count(&self) -> usize {
        self.tokens.len().pow(self.most as u32)
    }

    pub fn each(&self, f: &mut dyn FnMut(&[u8])) {
        let mut indices = Vec::new();
        loop {
            let middle: String = indices.iter().map(|&i: &usize| self.tokens[i]).collect();
            f([self.front, &middle, self.end].concat().as_bytes());
            // The next sequence, in order of length.
            let mut i = 0;
            while i < indices.len() && indices[i] + 1 == self.tokens.len() {
                indices[i] = 0;
                i += 1;
            }
            if i < indices.len() {
                indices[i] += 1;
            } else if indices.len() < self.most {
                indices.push(0);
            } else {
                return;
            }
        }
    }
}

// The Rust's own examples.

/// The string literals of a source, its doc comments too, each alone and where a part of a declaration can be.
pub fn examples(source: &str) -> Vec<Vec<u8>> {
    const AROUND: [(&str, &str); 8] = [
        ("", ""),
        ("enum E:t{", "}"),
        ("struct S{", "}"),
        ("cluster C=1{", "}"),
        ("cluster C=1{attribute ", ";}"),
        ("endpoint 0{", "}"),
        ("endpoint 0{server cluster C{", "}}"),
        ("enum E:t{a=", ";}"),
    ];
    let mut all = Vec::new();
    for literal in literals(source) {
        for (front, end) in AROUND {
            all.push([front, &literal, end].concat().into_bytes());
        }
    }
    all
}

fn literals(source: &str) -> Vec<String> {
    let plain: Vec<&str> = source.lines().map(|l| l.trim_start().trim_start_matches("///")).collect();
    let plain = plain.join("\n");
    let mut all = Vec::new();
    let mut rest = plain.as_str();
    while let Some(at) = rest.find('"') {
        if let Some(raw) = rest[..at].rfind("r#").filter(|&r| r + 2 == at) {
            let body = &rest[raw + 3..];
            let end = body.find("\"#").unwrap_or(body.len());
            all.push(body[..end].to_string());
            rest = body.get(end + 2..).unwrap_or("");
            continue;
        }
        let body = &rest[at + 1..];
        let mut end = 0;
        while end < body.len() && body.as_bytes()[end] != b'"' {
            end += if body.as_bytes()[end] == b'\\' { 2 } else { 1 };
        }
        let end = end.min(body.len());
        all.push(crate::tree::unescape(body.get(..end).unwrap_or("")));
        rest = body.get(end + 1..).unwrap_or("");
    }
    all
}
