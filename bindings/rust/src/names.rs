//! The names of a snapshot, which its paths share.
use std::hash::{Hash, Hasher};
use std::sync::{Arc, OnceLock};

use crate::ids::{ModuleId, NameId};
use crate::path::Path;
use crate::snapshot::Snapshot;
use crate::sys;
use crate::text::Text;
use crate::words::Edition;

/// The names of a snapshot. Each text is read where it is first asked for, and kept.
pub(crate) struct Names {
    /// Their records, and the places of the heads.
    words: Box<[u32]>,
    places: Box<[u32]>,
    kept: OnceLock<Box<[OnceLock<Name>]>>,
}

struct Name {
    text: Text,
    raw: Option<Box<Raw>>,
}

/// A keyword with `r#`, and the editions that write it so.
struct Raw {
    text: Box<[u8]>,
    editions: Vec<Edition>,
}

impl Names {
    /// Those of words that the check accepted, by the places of their heads.
    pub(crate) fn new(words: &[u32], places: &[u32]) -> Self {
        Names { words: words[..end(words, places)].into(), places: places.into(), kept: OnceLock::new() }
    }

    /// Words of their records, with which a snapshot begins.
    pub(crate) fn word_count(&self) -> usize {
        self.words.len()
    }

    /// The text of a name, where there is that name.
    pub(crate) fn read(&self, name: NameId) -> Option<Text> {
        let number = name.0 as usize;
        self.places.get(number)?;
        let mut bytes = [0; Text::MAX_BYTES];
        let length = sys::name(&self.words, &self.places, number, &mut bytes);
        Some(Text(bytes[..length].into()))
    }

    fn kept(&self, name: NameId) -> &Name {
        let kept = self.kept.get_or_init(|| self.places.iter().map(|_| OnceLock::new()).collect());
        kept[name.0 as usize].get_or_init(|| {
            let text = self.read(name).expect("a path has names of its snapshot");
            let raw = self.raw(name, text.as_bytes());
            Name { text, raw }
        })
    }

    fn raw(&self, name: NameId, text: &[u8]) -> Option<Box<Raw>> {
        if !may_be_keyword(text) {
            return None;
        }
        let is_raw = |edition: &Edition| sys::is_raw(&self.words, &self.places, name.0 as usize, *edition as usize);
        let editions: Vec<Edition> = Edition::ALL.into_iter().filter(is_raw).collect();
        (!editions.is_empty()).then(|| Box::new(Raw { text: [b"r#", text].concat().into(), editions }))
    }

    fn text(&self, name: NameId) -> &Text {
        &self.kept(name).text
    }

    /// A name as it is written in an edition: a keyword with `r#`.
    fn written(&self, name: NameId, edition: Edition) -> &[u8] {
        match self.kept(name) {
            Name { raw: Some(raw), .. } if raw.editions.contains(&edition) => &raw.text,
            name => name.text.as_bytes(),
        }
    }
}

/// The word after the last name's record.
fn end(words: &[u32], places: &[u32]) -> usize {
    places.last().map_or(0, |place| {
        let head = *place as usize;
        head + 1 + (words[head] & 0x0FFF_FFFF).div_ceil(3) as usize
    })
}

/// Whether a text may be a keyword: at most eight bytes, all but the first of them small letters. About others nothing is asked.
fn may_be_keyword(text: &[u8]) -> bool {
    text.len() <= 8 && text.iter().skip(1).all(u8::is_ascii_lowercase)
}

/// The names of a path, as they are written in the module from which it is seen. They outlive its snapshot.
#[derive(Clone)]
pub(crate) struct PathNames {
    names: Arc<Names>,
    edition: Edition,
    count: u8,
    ids: [u32; Path::MAX_NAMES],
}

impl PathNames {
    /// So many of the numbers.
    #[inline]
    pub(crate) fn new(snapshot: &Snapshot, from: ModuleId, ids: [u32; Path::MAX_NAMES], count: usize) -> Self {
        let edition = snapshot.edition(from).expect("a path is seen from a module of its snapshot");
        let count = u8::try_from(count).expect("as many names as a path may have");
        PathNames { names: Arc::clone(snapshot.names()), edition, count, ids }
    }

    pub(crate) fn ids(&self) -> impl ExactSizeIterator<Item = NameId> + '_ {
        self.ids[..self.count as usize].iter().map(|name| NameId(*name))
    }

    pub(crate) fn texts(&self) -> impl ExactSizeIterator<Item = &Text> + '_ {
        self.ids().map(|name| self.names.text(name))
    }

    pub(crate) fn written(&self) -> impl ExactSizeIterator<Item = &[u8]> + '_ {
        self.ids().map(|name| self.names.written(name, self.edition))
    }

    /// The names as they are written, after what stands before them.
    pub(crate) fn after<'n>(&'n self, start: impl IntoIterator<Item = &'n str>) -> Vec<u8> {
        let parts = start.into_iter().map(str::as_bytes).chain(self.written());
        parts.collect::<Vec<&[u8]>>().join(&b"::"[..])
    }
}

/// Names are the same where they are written the same, also of two snapshots.
impl PartialEq for PathNames {
    fn eq(&self, other: &Self) -> bool {
        let is_at_home = Arc::ptr_eq(&self.names, &other.names) && self.edition == other.edition;
        is_at_home && self.ids().eq(other.ids()) || self.written().eq(other.written())
    }
}

impl Eq for PathNames {}

impl Hash for PathNames {
    fn hash<H: Hasher>(&self, state: &mut H) {
        self.count.hash(state);
        self.written().for_each(|name| name.hash(state));
    }
}
