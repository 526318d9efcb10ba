//! The jobs that are measured: tapes and texts, made from a seed.

use oracle::measured::Job;

/// Numbers that look random and are the same at every run.
struct Chance(u64);

impl Chance {
    fn below(&mut self, limit: usize) -> usize {
        self.0 =
            self.0.wrapping_mul(6_364_136_223_846_793_005).wrapping_add(1_442_695_040_888_963_407);
        (self.0 >> 33) as usize % limit
    }
}

const WORDS: [&str; 16] = [
    "batch",
    "limit",
    "pressure",
    "valve",
    "a",
    "flow",
    "unit",
    "seal",
    "torque",
    "lot",
    "date",
    "checked",
    "tolerance",
    "part",
    "grade",
    "row",
];
const TAGS: [&str; 8] = ["div", "span", "table", "tr", "td", "p", "b", "section"];
const NAMES: [&str; 8] =
    ["id", "className", "title", "data-unit", "value", "href", "aria-label", "style"];

/// A source in the making: its text and the tape of the root at hand.
struct Source {
    chance: Chance,
    text: String,
    tape: Vec<u8>,
    line: u32,
    /// Start and length of each text so far.
    texts: Vec<(usize, usize)>,
}

impl Source {
    fn new(seed: u64) -> Self {
        Self {
            chance: Chance(seed),
            text: String::new(),
            tape: Vec::new(),
            line: 0,
            texts: Vec::new(),
        }
    }

    fn begin(&mut self) {
        self.tape = vec![0x01, 0, 0x02, 3];
    }

    fn put_span(&mut self, start: usize, len: usize) {
        self.tape.extend((start as u16).to_le_bytes());
        self.tape.extend((len as u16).to_le_bytes());
    }

    fn is_full(&self, len: usize) -> bool {
        self.text.len() + len > 65_000
    }

    /// Each word stands in the text by itself, as in a source; once the text is full, words that stand there are named again.
    fn span(&mut self, word: &str) {
        let start = if self.is_full(word.len()) {
            self.text.find(word).expect("a word that stands in the text")
        } else {
            self.text.push_str(word);
            self.text.len() - word.len()
        };
        self.put_span(start, word.len());
    }

    fn element(&mut self) {
        self.tape.push(0x10);
        self.tape.extend(self.line.to_le_bytes());
        self.tape.extend(4u32.to_le_bytes());
        self.line += 1;
        if self.chance.below(8) == 0 {
            self.tape.push(0x21);
            self.span("Cell");
        } else {
            self.tape.push(0x20);
            let tag = TAGS[self.chance.below(8)];
            self.span(tag);
        }
    }

    fn attribute(&mut self) {
        match self.chance.below(10) {
            0 => {
                self.tape.extend([0x32, 7, 0]);
                return;
            }
            1 => {
                self.tape.push(0x30);
                self.span("key");
            }
            _ => {
                self.tape.push(0x30);
                let name = NAMES[self.chance.below(8)];
                self.span(name);
            }
        }
        match self.chance.below(4) {
            0 => self.tape.extend([0x42, 9, 1]),
            _ => {
                self.tape.push(0x41);
                let word = WORDS[self.chance.below(16)];
                self.span(word);
            }
        }
    }

    /// A text of so many words, a line break behind about every sixth.
    fn words(&mut self, count: usize) {
        let mut text = String::new();
        for _ in 0..count {
            text.push_str(WORDS[self.chance.below(16)]);
            text.push_str(if self.chance.below(6) == 0 { "\n      " } else { " " });
        }
        self.tape.push(0x50);
        let (start, len) = if self.is_full(text.len()) {
            let one = self.chance.below(self.texts.len());
            self.texts[one]
        } else {
            self.text.push_str(&text);
            self.texts.push((self.text.len() - text.len(), text.len()));
            self.texts[self.texts.len() - 1]
        };
        self.put_span(start, len);
    }

    fn open_element(&mut self, attributes: usize) {
        self.element();
        for _ in 0..attributes {
            self.attribute();
        }
        self.tape.push(0x1e);
    }

    /// An element with elements in it, no deeper than so many levels.
    fn tree(&mut self, depth: usize) {
        let attributes = self.chance.below(4);
        self.open_element(attributes);
        if depth > 1 {
            for _ in 0..1 + self.chance.below(3) {
                self.tree(depth - 1);
            }
        }
        match self.chance.below(3) {
            0 => self.tape.extend([0x42, 3, 0]),
            _ => {
                let count = 2 + self.chance.below(5);
                self.words(count);
            }
        }
        self.tape.push(0x1f);
    }

    /// A root whose tape has about so many bytes: rows of small trees.
    fn rows(&mut self, size: usize) {
        self.begin();
        self.open_element(1);
        while self.tape.len() + 400 < size {
            self.tree(3);
        }
        while self.tape.len() + 40 < size {
            self.open_element(0);
            self.tape.push(0x1f);
        }
        self.tape.push(0x1f);
    }
}

/// Automatic in a module; automatic with development in a script; classic with both plugins.
const FLAGS: [u8; 3] = [0b1110_0001, 0b0111_0111, 0b0100_1111];

fn job(flags: u8, text: String, roots: Vec<Vec<u8>>) -> Job {
    Job { text, opening: vec![0x61, flags, 0], roots }
}

/// A source of one root whose tape has about so many bytes.
pub fn sized(size: usize, flags: u8) -> Job {
    let mut source = Source::new(size as u64);
    source.rows(size);
    job(flags, source.text, vec![source.tape])
}

pub struct Kind {
    pub name: &'static str,
    pub jobs: Vec<Job>,
    /// Whether the port is handed each root by itself, over a state that is kept in between; else the whole job at once.
    pub one_by_one: bool,
}

impl Kind {
    pub fn tape_bytes(&self) -> usize {
        self.jobs.iter().flat_map(|job| &job.roots).map(Vec::len).sum()
    }

    pub fn text_bytes(&self) -> usize {
        self.jobs.iter().map(|job| job.text.len()).sum()
    }
}

fn each_flags(make: impl Fn(u8) -> Job) -> Vec<Job> {
    FLAGS.into_iter().map(make).collect()
}

pub fn kinds() -> Vec<Kind> {
    let short = |seed: usize| {
        let mut source = Source::new(seed as u64);
        source.begin();
        source.tree(2);
        job(FLAGS[seed % 3], source.text, vec![source.tape])
    };
    let deep = |flags| {
        let mut source = Source::new(64);
        let mut roots = Vec::new();
        for _ in 0..20 {
            source.begin();
            for _ in 0..64 {
                source.open_element(1);
            }
            source.tape.extend([0x1f; 64]);
            roots.push(std::mem::take(&mut source.tape));
        }
        job(flags, source.text, roots)
    };
    let texts = |flags| {
        let mut source = Source::new(5);
        source.begin();
        source.open_element(0);
        for _ in 0..8 {
            source.words(1000);
        }
        source.tape.push(0x1f);
        job(flags, source.text, vec![source.tape])
    };
    let many = |flags| {
        let mut source = Source::new(6);
        let mut roots = Vec::new();
        while source.text.len() < 64_000 {
            source.begin();
            source.tree(2);
            source.text.push_str("\nexport const more = () => { return table(rows, columns); };\n");
            roots.push(std::mem::take(&mut source.tape));
        }
        job(flags, source.text, roots)
    };
    let kind = |name, jobs| Kind { name, jobs, one_by_one: false };
    vec![
        kind("short sheets", (0..60).map(short).collect()),
        kind("long sheets", each_flags(|flags| sized(60_000, flags))),
        kind("deep nesting", each_flags(deep)),
        kind("long texts", each_flags(texts)),
        kind("many roots, long text", each_flags(many)),
        Kind { one_by_one: true, ..kind("many roots, one by one", each_flags(many)) },
        kind("4 KiB", each_flags(|flags| sized(4 << 10, flags))),
        kind("16 KiB", each_flags(|flags| sized(16 << 10, flags))),
        kind("64 KiB", each_flags(|flags| sized((64 << 10) - 1, flags))),
    ]
}
