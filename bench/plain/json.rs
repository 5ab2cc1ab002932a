//! JSON as a tree over its text: what the documents and the answers of `batchrun` need of it. Numbers are whole and below 2^64. A text
//! without escapes is a part of the document. Lists of texts that come out as they were are no trees: `Texts`.

use std::borrow::Cow;
use std::mem;

pub enum Tree<'a> {
    /// `true`, `false` or `null`: which one, nothing here asks for.
    Word,
    Number(u64),
    Text(Cow<'a, str>),
    List(Vec<Tree<'a>>),
    Object(Vec<(Cow<'a, str>, Tree<'a>)>),
    /// Of a member `outputs`, which is a list of lists of texts.
    Texts(Vec<Texts>),
}

/// Texts as they are written: what stands between the brackets of a list.
#[derive(Default)]
pub struct Texts {
    pub text: String,
    pub count: usize,
}

impl Texts {
    /// Writes a text, which is given in parts, behind the others.
    pub fn push<const PARTS: usize>(&mut self, parts: [&str; PARTS]) {
        self.text.push_str(if self.count == 0 { "\"" } else { ",\"" });
        for part in parts {
            write_plain(&mut self.text, part);
        }
        self.text.push('"');
        self.count += 1;
    }
}

impl<'a> Tree<'a> {
    /// The member of an object.
    pub fn get(&self, name: &str) -> Option<&Tree<'a>> {
        match self {
            Tree::Object(members) => members.iter().find(|(key, _)| key == name).map(|(_, value)| value),
            _ => None,
        }
    }

    pub fn get_mut(&mut self, name: &str) -> Option<&mut Tree<'a>> {
        match self {
            Tree::Object(members) => members.iter_mut().find(|(key, _)| key == name).map(|(_, value)| value),
            _ => None,
        }
    }

    /// Takes the lists of texts out of the member of an object.
    pub fn take_texts(&mut self, name: &str) -> Option<Vec<Texts>> {
        match self.get_mut(name)? {
            Tree::Texts(lists) => Some(mem::take(lists)),
            _ => None,
        }
    }

    /// The elements of a list: none where there is no list.
    pub fn list(&self) -> &[Tree<'a>] {
        match self {
            Tree::List(elements) => elements,
            _ => &[],
        }
    }

    pub fn number(&self) -> Option<u64> {
        match self {
            Tree::Number(number) => Some(*number),
            _ => None,
        }
    }

    pub fn text(&self) -> Option<&str> {
        match self {
            Tree::Text(text) => Some(text),
            _ => None,
        }
    }
}

/// The tree of a text that is one JSON value.
pub fn read(text: &str) -> Option<Tree<'_>> {
    let mut reader = Reader { text, at: 0 };
    let tree = reader.value()?;
    reader.skip_blanks();
    (reader.at == text.len()).then_some(tree)
}

struct Reader<'a> {
    text: &'a str,
    at: usize,
}

impl<'a> Reader<'a> {
    fn peek(&self) -> Option<u8> {
        self.text.as_bytes().get(self.at).copied()
    }

    fn skip_blanks(&mut self) {
        while matches!(self.peek(), Some(b' ' | b'\n' | b'\r' | b'\t')) {
            self.at += 1;
        }
    }

    /// Takes this byte, behind blanks, where it stands here.
    fn take(&mut self, byte: u8) -> Option<()> {
        self.skip_blanks();
        (self.peek() == Some(byte)).then(|| self.at += 1)
    }

    fn word(&mut self, word: &str) -> Option<Tree<'a>> {
        self.text.as_bytes()[self.at..].starts_with(word.as_bytes()).then(|| self.at += word.len())?;
        Some(Tree::Word)
    }

    fn value(&mut self) -> Option<Tree<'a>> {
        self.skip_blanks();
        match self.peek()? {
            b'"' => self.string().map(Tree::Text),
            b'[' => self.elements(),
            b'{' => self.members(),
            b'0'..=b'9' => self.digits(),
            b't' => self.word("true"),
            b'f' => self.word("false"),
            _ => self.word("null"),
        }
    }

    fn digits(&mut self) -> Option<Tree<'a>> {
        let begin = self.at;
        while matches!(self.peek(), Some(b'0'..=b'9')) {
            self.at += 1;
        }
        self.text[begin..self.at].parse().ok().map(Tree::Number)
    }

    /// Passes a list over, whose elements `element` reads.
    fn each(&mut self, mut element: impl FnMut(&mut Self) -> Option<()>) -> Option<()> {
        self.take(b'[')?;
        if self.take(b']').is_some() {
            return Some(());
        }
        loop {
            element(self)?;
            if self.take(b',').is_none() {
                return self.take(b']');
            }
        }
    }

    fn elements(&mut self) -> Option<Tree<'a>> {
        let mut elements = Vec::new();
        self.each(|reader| reader.value().map(|element| elements.push(element)))?;
        Some(Tree::List(elements))
    }

    fn texts(&mut self) -> Option<Texts> {
        let mut texts = Texts::default();
        self.each(|reader| reader.string().map(|text| texts.push([&text])))?;
        Some(texts)
    }

    fn lists_of_texts(&mut self) -> Option<Tree<'a>> {
        let mut lists = Vec::new();
        self.each(|reader| reader.texts().map(|texts| lists.push(texts)))?;
        Some(Tree::Texts(lists))
    }

    fn members(&mut self) -> Option<Tree<'a>> {
        self.take(b'{')?;
        let mut members = Vec::new();
        if self.take(b'}').is_some() {
            return Some(Tree::Object(members));
        }
        loop {
            self.skip_blanks();
            let name = self.string()?;
            self.take(b':')?;
            let value = if name == "outputs" { self.lists_of_texts()? } else { self.value()? };
            members.push((name, value));
            if self.take(b',').is_none() {
                return self.take(b'}').map(|()| Tree::Object(members));
            }
        }
    }

    /// What stands up to the next quote or escape.
    fn part(&mut self) -> &'a str {
        let rest = &self.text[self.at..];
        let part = &rest[..plain_length(rest)];
        self.at += part.len();
        part
    }

    fn string(&mut self) -> Option<Cow<'a, str>> {
        self.take(b'"')?;
        let first = self.part();
        if self.peek()? == b'"' {
            self.at += 1;
            return Some(Cow::Borrowed(first));
        }
        let mut string = String::from(first);
        while self.peek()? == b'\\' {
            self.at += 1;
            string.push(self.escaped()?);
            string.push_str(self.part());
        }
        self.take(b'"')?;
        Some(Cow::Owned(string))
    }

    fn escaped(&mut self) -> Option<char> {
        let letter = self.peek()?;
        self.at += 1;
        Some(match letter {
            b'"' | b'\\' | b'/' => char::from(letter),
            b'b' => '\u{8}',
            b'f' => '\u{c}',
            b'n' => '\n',
            b'r' => '\r',
            b't' => '\t',
            b'u' => return self.unit_or_pair(),
            _ => return None,
        })
    }

    fn unit(&mut self) -> Option<u32> {
        let digits = self.text.get(self.at..self.at + 4)?;
        self.at += 4;
        u32::from_str_radix(digits, 16).ok()
    }

    fn unit_or_pair(&mut self) -> Option<char> {
        let high = self.unit()?;
        if !(0xd800..0xdc00).contains(&high) {
            return char::from_u32(high);
        }
        self.text[self.at..].starts_with("\\u").then(|| self.at += 2)?;
        let low = self.unit()?.checked_sub(0xdc00)?;
        char::from_u32(0x10000 + (high - 0xd800) * 0x400 + low)
    }
}

const ONES: u64 = u64::MAX / 255;
const TOPS: u64 = ONES << 7;

/// Which of eight bytes is a quote, a backslash or a control character: its top bit, and maybe those of bytes above it.
fn special(eight: u64) -> u64 {
    let zero = |bytes: u64| bytes.wrapping_sub(ONES) & !bytes;
    let quote = zero(eight ^ (ONES * b'"' as u64));
    let backslash = zero(eight ^ (ONES * b'\\' as u64));
    let control = eight.wrapping_sub(ONES * b' ' as u64) & !eight;
    (quote | backslash | control) & TOPS
}

/// How many bytes stand before the first quote, backslash or control character. Eight at a time.
fn plain_length(text: &str) -> usize {
    let mut eights = text.as_bytes().chunks_exact(8);
    for (place, eight) in eights.by_ref().enumerate() {
        let found = special(u64::from_le_bytes(eight.try_into().unwrap()));
        if found != 0 {
            return place * 8 + found.trailing_zeros() as usize / 8;
        }
    }
    let rest = eights.remainder();
    text.len() - rest.len() + rest.iter().position(|&byte| byte == b'"' || byte == b'\\' || byte < b' ').unwrap_or(rest.len())
}

/// Writes a text as it stands between the quotes of a JSON string.
pub fn write_plain(to: &mut String, text: &str) {
    let mut rest = text;
    loop {
        let length = plain_length(rest);
        to.push_str(&rest[..length]);
        let Some(special) = rest.as_bytes().get(length) else { return };
        write_escape(to, *special);
        rest = &rest[length + 1..];
    }
}

/// Writes a quote, a backslash or a control character.
fn write_escape(to: &mut String, special: u8) {
    let short = match special {
        b'"' | b'\\' => special,
        8 => b'b',
        12 => b'f',
        b'\n' => b'n',
        b'\r' => b'r',
        b'\t' => b't',
        _ => {
            to.push_str(if special < 16 { "\\u000" } else { "\\u001" });
            return to.push(char::from(b"0123456789abcdef"[usize::from(special % 16)]));
        }
    };
    to.push('\\');
    to.push(char::from(short));
}
