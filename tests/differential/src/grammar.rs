//! Texts from the grammar: every production with every option.
use crate::generate::Random;

const BLANKS: [&str; 20] = [
    " ", " ", " ", "\n", "\t", "\r\n", "  ", "\n\n    ", "/**/", "/* a */", "/** d */", "/***/", "// c\n", "//x\r\n", "/*/*/",
    "/** \u{e9}\u{20ac} */", "/*** x **/", "///\n", "/**e*/", "/* \u{1f600} */",
];
const NAMES: [&str; 16] = [
    "a", "b", "E", "S", "kOne", "_", "_1", "x9", "LongName_0123456789", "stable", "shared", "access", "default", "optional", "read", "type",
];
const TYPES: [&str; 8] = ["t", "int8u", "char_string", "enum8", "T_1", "nullable", "fabric_idx", "struct"];
const INTEGERS: [&str; 16] = [
    "0", "1", "2", "7", "10", "254", "00012", "0x0", "0X1f", "0xFFF1", "0xAbCdEf", "65535", "18446744073709551615", "0xFFFFFFFFFFFFFFFF",
    "00000000000000000000000000001", "0x00000000000000000001",
];
/// Integers that refuse or fail.
const ODD_INTEGERS: [&str; 6] = ["18446744073709551616", "0x10000000000000000", "0x", "00x1", "99999999999999999999", "0xg"];
const STRINGS: [&str; 9] = ["", "a", "two words", "\\\"", "\\\\", "\u{e9}", "a\\\\\\\"b", "//", "{;}"];
const DEFAULT_STRINGS: [&str; 5] = ["\\n", "\\t", "a\\nb\\tc", "\\\\r", "line\nfeed"];
const ODD_STRINGS: [&str; 4] = ["\\r", "\\x", "a\\", "\\x\\r"];

/// How annotations are written: a list at one entry in so many, pieces of values, and what follows an annotation.
struct Lists {
    one_in: usize,
    values: &'static [&'static str],
    ends: &'static [&'static str],
}

const VALUES: [&str; 24] = [
    "", "a", "Left side", "\\\"", "\\\\", "\u{e9}", "\u{1f600}", "a\\\\\\\"b", "//", "// c\n", "/*", "*/", "/** d */", "\n", "\r\n", "\n}",
    "}", "]", "];", "[b=", "=", ",", ";", "\t",
];
const FEW: Lists = Lists { one_in: 4, values: &STRINGS, ends: &[",", ",", ""] };
const MANY: Lists = Lists { one_in: 1, values: &VALUES, ends: &[",", ",", ""] };
const SOME: Lists = Lists { one_in: 2, ..MANY };
/// Lists that fail are among them.
const ODD: Lists = Lists { ends: &[",", ",", ",", "", "", "", ",,", ";", "]", "\"", "b", "b=", "1=\"\"", "=\"\"", "[]"], ..SOME };

pub struct Grammar<'a> {
    pub random: &'a mut Random,
    pub out: String,
    /// Blanks where they are free: one in so many.
    blanks: usize,
    /// Keywords in other cases, integers and strings that refuse: one in so many.
    odd: usize,
    /// The fewest and the most parts of anything.
    fewest: usize,
    parts: usize,
    lists: &'static Lists,
}

impl<'a> Grammar<'a> {
    pub fn new(random: &'a mut Random) -> Self {
        let blanks = *random.pick(&[&1000, &8, &3, &1]);
        let odd = *random.pick(&[&1000, &100, &20]);
        let parts = *random.pick(&[&1, &2, &2, &4]);
        Grammar { random, out: String::new(), blanks, odd, fewest: 0, parts, lists: &FEW }
    }

    /// One item, mostly without blanks that are free.
    pub fn short(random: &'a mut Random) -> Vec<u8> {
        let blanks = *random.pick(&[&1000, &1000, &8]);
        let odd = *random.pick(&[&1000, &20]);
        let fewest = *random.pick(&[&0, &1, &1]);
        let mut grammar = Grammar { random, out: String::new(), blanks, odd, fewest, parts: 1, lists: &FEW };
        match grammar.random.below(8) {
            0..=3 => grammar.cluster(),
            4..=5 => grammar.endpoint(),
            6 => grammar.enumeration(true),
            _ => grammar.structure(true),
        }
        grammar.out.into_bytes()
    }

    fn put(&mut self, s: &str) {
        self.out.push_str(s);
    }

    fn chance(&mut self, one_in: usize) -> bool {
        self.random.chance(one_in)
    }

    fn pick(&mut self, list: &[&'static str]) {
        let s = self.random.pick(list);
        self.put(s);
    }

    fn blank(&mut self) {
        self.pick(if self.blanks > 100 { &BLANKS[..1] } else { &BLANKS });
        while self.chance(self.blanks + 2) {
            self.pick(&BLANKS);
        }
    }

    fn blanks(&mut self) {
        if self.chance(self.blanks) {
            self.blank();
        }
    }

    fn key(&mut self, word: &str) {
        if self.chance(self.odd) {
            let other = if self.chance(2) { word.to_uppercase() } else { word[..1].to_uppercase() + &word[1..] };
            self.put(&other);
        } else {
            self.put(word);
        }
    }

    fn key_blank(&mut self, word: &str) {
        self.key(word);
        self.blank();
    }

    fn spaced(&mut self, tag: &str) {
        self.blanks();
        self.put(tag);
        self.blanks();
    }

    fn one_key(&mut self, words: &[&'static str]) {
        let word = self.random.pick(words);
        self.key(word);
    }

    fn name(&mut self) {
        let pool = if self.chance(4) { 16 } else { 4 };
        self.pick(&NAMES[..pool]);
    }

    fn integer(&mut self) {
        if self.chance(self.odd * 4) {
            self.pick(&ODD_INTEGERS);
        } else if self.chance(20) {
            let n = self.random.next();
            let text = if n & 1 == 0 { n.to_string() } else { format!("0x{n:x}") };
            self.put(&text);
        } else {
            self.pick(&INTEGERS);
        }
    }

    fn maturity(&mut self) {
        if self.chance(4) {
            self.one_key(&["stable", "provisional", "internal", "deprecated"]);
            self.blank();
        }
    }

    fn front(&mut self) {
        if self.chance(4) {
            self.pick(&["/** d */", "/***/", "/** \u{e9} **/", "/**x*/ /* y */", "/**x*/\n"]);
        }
        self.blanks();
        self.maturity();
    }

    fn several(&mut self, part: impl Fn(&mut Self)) {
        for _ in 0..self.fewest + self.random.below(self.parts + 1 - self.fewest) {
            part(self);
        }
    }

    /// Words of a set, in any order, some twice.
    fn set(&mut self, words: &[&'static str]) {
        while self.chance(3) {
            self.one_key(words);
            self.blank();
        }
    }

    pub fn text(mut self) -> Vec<u8> {
        self.several(|g| match g.random.below(8) {
            0..=2 => g.cluster(),
            3..=4 => g.endpoint(),
            5 => g.enumeration(true),
            6 => g.structure(true),
            _ => g.blank(),
        });
        self.blanks();
        self.out.into_bytes()
    }

    /// Clusters with shared types of few names, and such types at the top level.
    pub fn hoisting(mut self) -> Vec<u8> {
        self.parts = 4;
        for _ in 0..2 + self.random.below(4) {
            if self.chance(3) {
                self.bare_type();
                continue;
            }
            self.put("cluster C=1{");
            self.several(|g| {
                g.pick(&["shared ", "shared ", "shared ", "SHARED ", ""]);
                g.bare_type();
            });
            self.put("}");
        }
        self.out.into_bytes()
    }

    /// Enums and bitmaps, in a cluster or not, with many annotations.
    pub fn annotated(mut self) -> Vec<u8> {
        self.lists = self.random.pick(&[&MANY, &SOME, &ODD]);
        self.parts = *self.random.pick(&[&1, &2, &3]);
        let top = self.chance(2);
        self.put(if top { "" } else { "cluster C=1{" });
        self.enumeration(top);
        self.several(|g| g.enumeration(top));
        self.put(if top { "" } else { "}" });
        self.out.into_bytes()
    }

    fn bare_type(&mut self) {
        let kind = self.random.below(3);
        self.pick(&[["enum "], ["bitmap "], ["struct "]][kind]);
        self.pick(&["A", "B", "AA"]);
        self.pick(&if kind == 2 { ["{}", "{t a=1;}"] } else { [":t{}", ":t{a=1;}"] });
    }

    fn cluster(&mut self) {
        self.front();
        if self.chance(3) {
            self.one_key(&["client", "server"]);
            self.blank();
        }
        self.key_blank("cluster");
        self.name();
        self.spaced("=");
        self.integer();
        self.blanks();
        self.put("{");
        self.several(|g| g.member());
        self.blanks();
        self.put("}");
    }

    fn member(&mut self) {
        match self.random.below(8) {
            0 => {
                self.front();
                self.key_blank("revision");
                self.integer();
                self.blanks();
                self.put(";");
            }
            1..=2 => self.enumeration(false),
            3 => self.structure(false),
            4..=5 => self.attribute(),
            6 => self.command(),
            _ => self.event(),
        }
    }

    fn enumeration(&mut self, top: bool) {
        self.front();
        if self.chance(if top { 8 } else { 2 }) {
            self.key_blank("shared");
        }
        self.one_key(&["enum", "bitmap"]);
        self.blank();
        self.name();
        self.spaced(":");
        self.pick(&TYPES);
        self.blanks();
        self.put("{");
        self.several(|g| g.entry());
        self.blanks();
        self.put("}");
    }

    fn entry(&mut self) {
        self.front();
        self.name();
        self.spaced("=");
        self.integer();
        self.blanks();
        if self.chance(self.lists.one_in) {
            self.annotations();
        }
        self.blanks();
        self.put(";");
    }

    fn annotations(&mut self) {
        self.put("[");
        self.several(|g| {
            g.blanks();
            g.name();
            g.spaced("=");
            g.string(g.lists.values);
            g.blanks();
            g.pick(g.lists.ends);
        });
        self.blanks();
        self.put("]");
    }

    fn string(&mut self, pool: &[&'static str]) {
        self.put("\"");
        while self.chance(2) {
            self.pick(pool);
        }
        if self.chance(self.odd) {
            self.pick(&ODD_STRINGS);
        }
        self.put("\"");
    }

    fn structure(&mut self, top: bool) {
        self.front();
        let form = self.random.below(if top { 5 } else { 4 });
        if form > 0 && form < 4 {
            self.key(["request", "response", "shared"][form - 1]);
            self.blank();
        }
        self.set(&["fabric_scoped"]);
        self.key_blank("struct");
        self.name();
        if form == 2 {
            self.spaced("=");
            self.integer();
        }
        self.blanks();
        self.fields();
    }

    fn fields(&mut self) {
        self.put("{");
        self.several(|g| {
            g.field();
            g.blanks();
            g.put(";");
        });
        self.blanks();
        self.put("}");
    }

    fn field(&mut self) {
        self.blanks();
        self.maturity();
        self.set(&["optional", "nullable", "fabric_sensitive"]);
        self.pick(&TYPES);
        if self.chance(4) {
            self.spaced("<");
            self.integer();
            self.blanks();
            self.put(">");
        }
        self.blank();
        self.name();
        self.blanks();
        if self.chance(4) {
            self.put("[");
            self.spaced("]");
        }
        self.put("=");
        self.blanks();
        self.integer();
    }

    fn privilege(&mut self) {
        self.one_key(&["view", "operate", "manage", "administer"]);
    }

    fn attribute(&mut self) {
        self.front();
        self.set(&["readonly", "writeonly", "nosubscribe", "timedwrite"]);
        self.key_blank("attribute");
        if self.chance(2) {
            self.key("access");
            self.spaced("(");
            let n = self.random.below(4);
            for i in 0..n {
                self.blanks();
                self.one_key(&["read", "write"]);
                self.spaced(":");
                self.privilege();
                self.blanks();
                if i + 1 < n || self.chance(self.odd) {
                    self.spaced(",");
                }
            }
            self.put(")");
        }
        self.blanks();
        self.field();
        self.blanks();
        self.put(";");
    }

    fn access(&mut self, word: &'static str) {
        self.key("access");
        self.spaced("(");
        self.key(word);
        self.put(":");
        self.blanks();
        self.privilege();
        self.blanks();
        self.put(")");
    }

    fn command(&mut self) {
        self.front();
        self.set(&["timed", "fabric"]);
        self.key_blank("command");
        if self.chance(2) {
            self.access("invoke");
        }
        self.blanks();
        self.name();
        self.spaced("(");
        if self.chance(2) {
            self.name();
        }
        self.spaced(")");
        self.spaced(":");
        self.pick(&TYPES);
        self.spaced("=");
        self.integer();
        self.blanks();
        self.put(";");
    }

    fn event(&mut self) {
        self.front();
        self.set(&["fabric_sensitive"]);
        self.one_key(&["critical", "info", "debug"]);
        self.blank();
        self.key_blank("event");
        if self.chance(2) {
            self.access("read");
        }
        self.blanks();
        self.name();
        self.spaced("=");
        self.integer();
        self.blanks();
        self.fields();
    }

    fn endpoint(&mut self) {
        self.blanks();
        self.key_blank("endpoint");
        self.integer();
        self.blanks();
        self.put("{");
        self.several(|g| {
            g.blanks();
            match g.random.below(4) {
                0 => g.device_type(),
                1 => g.named("binding", "cluster"),
                _ => g.instantiation(),
            }
        });
        self.blanks();
        self.put("}");
    }

    fn named(&mut self, first: &str, second: &str) {
        self.key_blank(first);
        self.key_blank(second);
        self.name();
        self.blanks();
        self.put(";");
    }

    fn device_type(&mut self) {
        self.key_blank("device");
        self.key_blank("type");
        self.name();
        self.spaced("=");
        self.integer();
        self.spaced(",");
        self.key("version");
        self.blanks();
        self.integer();
        self.blanks();
        self.put(";");
    }

    fn instantiation(&mut self) {
        self.key_blank("server");
        self.key_blank("cluster");
        self.name();
        self.blanks();
        self.put("{");
        self.several(|g| {
            g.blanks();
            match g.random.below(5) {
                0 => g.named("handle", "command"),
                1 => g.named("emits", "event"),
                _ => g.attribute_instance(),
            }
        });
        self.blanks();
        self.put("}");
    }

    fn attribute_instance(&mut self) {
        self.one_key(&["ram", "callback", "persist"]);
        self.blank();
        self.key_blank("attribute");
        self.name();
        if !self.chance(4) {
            self.blank();
            self.key("default");
            self.spaced("=");
            match self.random.below(5) {
                0 => self.integer(),
                1 => self.signed(),
                2 => self.one_key(&["true", "false"]),
                _ => self.string(&[&STRINGS[..], &DEFAULT_STRINGS[..]].concat()),
            }
        }
        self.blanks();
        self.put(";");
    }

    fn signed(&mut self) {
        self.pick(&["+", "-"]);
        self.pick(&[
            "0", "5", "007", "9223372036854775807", "9223372036854775808", "9223372036854775809", "18446744073709551616", "0x1", "",
        ]);
    }
}

pub fn from_grammar(random: &mut Random) -> Vec<u8> {
    let grammar = Grammar::new(random);
    if grammar.random.chance(8) {
        grammar.hoisting()
    } else {
        grammar.text()
    }
}

pub fn annotated(random: &mut Random) -> Vec<u8> {
    Grammar::new(random).annotated()
}
