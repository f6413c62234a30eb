//! The import list of a crate by a rule that is written from the request, not from the definitions nor from the text: for parents with members of
//! both sorts, which the Rust has none of. With a mistake it is a wrong program.
use std::collections::{HashSet, VecDeque};

use crate::check::{Import, Member, Scope, Snapshot};

#[derive(Clone, Copy, PartialEq, Eq, Debug)]
pub enum Mistake {
    FirstInFirstOut,
    MembersAfterTheParent,
    BitsOfTheDefinition,
    VisitedAtPush,
    OrderByPackedWords,
    ValuesBeforeTypes,
    AliasesKept,
    OtherCratesNotEntered,
    RecordOrder,
    ShorterTextsFirst,
    PrivateEntriesToo,
    ModulesInTypesAlone,
    MembersInTypes,
    VariantsInTheNamespaceOfTheEntry,
    BitsOfTheParent,
    MembersUnderTheFirstName,
    ContainersOfTheDefinition,
}

pub const MISTAKES: [Mistake; 17] = [
    Mistake::FirstInFirstOut,
    Mistake::MembersAfterTheParent,
    Mistake::BitsOfTheDefinition,
    Mistake::VisitedAtPush,
    Mistake::OrderByPackedWords,
    Mistake::ValuesBeforeTypes,
    Mistake::AliasesKept,
    Mistake::OtherCratesNotEntered,
    Mistake::RecordOrder,
    Mistake::ShorterTextsFirst,
    Mistake::PrivateEntriesToo,
    Mistake::ModulesInTypesAlone,
    Mistake::MembersInTypes,
    Mistake::VariantsInTheNamespaceOfTheEntry,
    Mistake::BitsOfTheParent,
    Mistake::MembersUnderTheFirstName,
    Mistake::ContainersOfTheDefinition,
];

/// The imports of a crate, in order.
pub fn list(s: &Snapshot, krate: usize, mistake: Option<Mistake>) -> Vec<Import> {
    Rule { s, krate, mistake }.list()
}

struct Rule<'a> {
    s: &'a Snapshot,
    krate: usize,
    mistake: Option<Mistake>,
}

impl Rule<'_> {
    fn makes(&self, mistake: Mistake) -> bool {
        self.mistake == Some(mistake)
    }

    fn list(&self) -> Vec<Import> {
        let own = self.s.maps.iter().position(|map| map.krate == self.krate && map.block == 0).expect("an own map");
        let root = self.s.modules.iter().position(|module| module.map == own).expect("a root");
        let mut waiting = VecDeque::from([root]);
        let mut seen = HashSet::new();
        let mut met = HashSet::new();
        let mut all = Vec::new();
        let at_push = self.makes(Mistake::VisitedAtPush);
        if at_push {
            seen.insert(root);
        }
        while let Some(module) = self.next(&mut waiting) {
            if !at_push && !seen.insert(module) {
                continue;
            }
            for e in self.entries(module) {
                let first = met.insert(e.definition);
                self.add(&mut all, e, first || !self.makes(Mistake::MembersUnderTheFirstName));
                waiting.extend(self.entered(e).filter(|&module| !at_push || seen.insert(module)));
            }
        }
        all
    }

    fn next(&self, waiting: &mut VecDeque<usize>) -> Option<usize> {
        if self.makes(Mistake::FirstInFirstOut) { waiting.pop_front() } else { waiting.pop_back() }
    }

    /// The module that an entry leads to.
    fn entered(&self, e: &Scope) -> Option<usize> {
        let definition = &self.s.definitions[e.definition];
        let left_out = |module: usize| {
            self.makes(Mistake::OtherCratesNotEntered) && self.s.maps[self.s.modules[module].map].krate != self.krate
                || self.makes(Mistake::ModulesInTypesAlone) && e.ns != 0
        };
        (definition.kind == 1 && !left_out(definition.first)).then_some(definition.first)
    }

    /// The public entries of a module, in order.
    fn entries(&self, module: usize) -> Vec<&Scope> {
        let public = |e: &&Scope| e.visibility == 0 || self.makes(Mistake::PrivateEntriesToo);
        let mut entries: Vec<&Scope> = self.s.scopes.iter().filter(|e| e.owner == module).filter(public).collect();
        let text = |e: &Scope| &self.s.names[e.name][..];
        let packed = |e: &Scope| -> Vec<u32> { text(e).chunks(3).map(packed_word).collect() };
        match self.mistake {
            Some(Mistake::RecordOrder) => (),
            Some(Mistake::OrderByPackedWords) => entries.sort_by_key(|e| (packed(e), text(e).len(), e.ns)),
            Some(Mistake::ShorterTextsFirst) => entries.sort_by_key(|e| (text(e).len(), text(e), e.ns)),
            Some(Mistake::ValuesBeforeTypes) => entries.sort_by_key(|e| (text(e), [1, 0, 2][e.ns])),
            _ => entries.sort_by_key(|e| (text(e), e.ns)),
        }
        entries
    }

    /// An entry's members and the entry.
    fn add(&self, all: &mut Vec<Import>, e: &Scope, with_members: bool) {
        let members = self.s.members.iter().filter(|m| m.parent == e.definition && with_members);
        let kept = members.filter(|m| m.kind != 3 || self.makes(Mistake::AliasesKept)).map(|m| self.member(e, m));
        let first = self.s.scopes.iter().find(|other| other.definition == e.definition).expect("at least this one");
        let bits = if self.makes(Mistake::BitsOfTheDefinition) { first.bits } else { e.bits };
        let own = self.import(e, e.ns, e.definition, e.name, bits);
        if self.makes(Mistake::MembersAfterTheParent) {
            all.push(own);
            all.extend(kept);
        } else {
            all.extend(kept);
            all.push(own);
        }
    }

    fn member(&self, e: &Scope, m: &Member) -> Import {
        let ns = match m.kind {
            0 if self.makes(Mistake::VariantsInTheNamespaceOfTheEntry) => e.ns,
            0 => 0,
            _ if self.makes(Mistake::MembersInTypes) => 0,
            _ => e.ns,
        };
        let bits = if self.makes(Mistake::BitsOfTheParent) { e.bits } else { m.bits };
        self.import(e, ns, m.definition, m.name, bits)
    }

    fn import(&self, e: &Scope, ns: usize, definition: usize, name: usize, bits: usize) -> Import {
        let home = &self.s.definitions[definition];
        let moved = self.makes(Mistake::ContainersOfTheDefinition) && home.kind >= 4;
        let container = if moved { home.first } else { e.owner };
        Import { owner: self.krate, ns, definition, name, container, bits }
    }
}

/// Three bytes, lowest first.
fn packed_word(bytes: &[u8]) -> u32 {
    bytes.iter().rev().fold(0, |word, &byte| word << 8 | u32::from(byte))
}
