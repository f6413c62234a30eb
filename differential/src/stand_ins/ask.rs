// A question put to find_path.
use super::fill::{Filled, item};
use super::find_path::{FindPathConfig, PrefixKind, find_path};
use super::hir_expand::mod_path::{ModPath, PathKind};
use super::module_id;
use crate::check::Snapshot;
use crate::{Answer, Question};

pub struct Program(Filled);

impl Program {
    pub fn new(s: &Snapshot) -> Program {
        Program(Filled::new(s))
    }

    fn printed(&self, path: ModPath) -> crate::Path {
        let kind = match path.kind {
            PathKind::Plain => 0,
            PathKind::Super(0) => 1,
            PathKind::Super(1) => 2,
            PathKind::Crate => 3,
            PathKind::Abs => 4,
            other => panic!("no path of a report: {other:?}"),
        };
        crate::Path { kind, names: path.segments.iter().map(|name| self.0.names[name]).collect() }
    }
}

impl crate::Answers for Program {
    fn put(&self, question: &Question) -> Answer {
        let store = &self.0.store;
        let tank = &store.tank;
        tank.fuel.set(question.fuel);
        tank.charges.set(0);
        tank.empty.set(false);
        store.limit.set(question.limit);
        let option = |bit: usize| question.options & bit != 0;
        store.old_names_last.set(option(32));
        let prefix = [PrefixKind::BySelf, PrefixKind::Plain, PrefixKind::ByCrate][question.prefix];
        let cfg = FindPathConfig {
            prefer_no_std: option(1),
            prefer_prelude: option(2),
            prefer_absolute: option(4),
            allow_unstable: option(8),
        };
        let item = item(question.ns, self.0.definitions[question.definition]);
        let path = find_path(store, item, module_id(question.from), prefix, option(16), cfg);
        Answer { path: path.map(|path| self.printed(path)), charges: tank.charges.get(), empty: tank.empty.get() }
    }
}
