//! Programs that are wrong on purpose, each the right one with a few changes.

use super::text::Edit;

/// `same` says why no input tells the program from the right one, where that is so.
pub struct Wrong {
    pub name: &'static str,
    pub same: &'static str,
    pub edits: &'static [Edit],
}

/// A change that looks for something once.
const fn once(part: &'static str, within: &'static str, old: &'static str, new: &'static str) -> Edit {
    Edit { part, within, times: 1, old, new }
}

const fn each(times: usize, part: &'static str, within: &'static str, old: &'static str, new: &'static str) -> Edit {
    Edit { part, within, times, old, new }
}

const fn wrong(name: &'static str, edits: &'static [Edit]) -> Wrong {
    Wrong { name, same: "", edits }
}

const fn same(name: &'static str, same: &'static str, edits: &'static [Edit]) -> Wrong {
    Wrong { name, same, edits }
}

const F: &str = "find_path";
const MODULE: &str = "find_path_for_module";
const INNER: &str = "find_path_inner";
const BEST: &str = "calculate_best_path";
const SYSROOT: &str = "find_in_sysroot";
const DEP: &str = "find_in_dep";
const LOCAL: &str = "calculate_best_path_local";
const WALK: &str = "find_local_import_locations";
const PRELUDE: &str = "find_in_prelude";
const KEYWORD: &str = "is_kw_kind_relative_to_from";
const SEES: &str = "is_visible_from_def_map_";
const OLD: &str = "old_names";

pub const WRONG_PROGRAMS: &[Wrong] = &[
    // what is set for a question
    wrong(
        "no_std_by_the_option_alone",
        &[
            once(F, F, "from_def_map.is_no_std()", "false"),
            once(F, F, "crate_supports_no_std(db, from_crate)", "false"),
        ],
    ),
    wrong("no_std_not_by_the_map", &[once(F, F, "from_def_map.is_no_std()", "false")]),
    wrong("no_std_not_by_the_crate", &[once(F, F, "crate_supports_no_std(db, from_crate)", "false")]),
    wrong(
        "no_std_by_the_crates_own_map",
        &[once(F, F, "from_def_map.is_no_std()", "from_def_map.crate_root(db).def_map(db).is_no_std()")],
    ),
    wrong("prefix_kept_in_blocks", &[once(F, F, "prefix_kind = PrefixKind::Plain;", "")]),
    wrong("plain_where_the_viewer_is_in_a_block", &[once(F, F, "item_module.block(db)", "from.block(db)")]),
    wrong("std_item_by_the_viewers_crate", &[once(F, F, "item_module.krate(db).data", "from.krate(db).data")]),
    wrong(
        "std_item_by_the_item_searched",
        &[once(
            F,
            BEST,
            "ctx.is_std_item",
            "item.krate(ctx.db).is_some_and(|krate| krate.data(ctx.db).origin.is_lang())",
        )],
    ),
    wrong(
        "no_other_language",
        &[once(
            "lib",
            "is_lang",
            "CrateOrigin::Lang(_)",
            "CrateOrigin::Lang(LangCrateOrigin::Core | LangCrateOrigin::Alloc | LangCrateOrigin::Std)",
        )],
    ),
    wrong(
        "builtin_in_values_found",
        &[once(
            F,
            F,
            "(ModuleDefId::BuiltinType(builtin)) =",
            "(ModuleDefId::BuiltinType(builtin)) | ItemInNs::Values(ModuleDefId::BuiltinType(builtin)) =",
        )],
    ),
    wrong("limit_one_less", &[once(F, F, "db.store().limit.get()", "(db.store().limit.get() - 1).max(1)")]),
    wrong("limit_one_more", &[once(F, F, "db.store().limit.get()", "db.store().limit.get() + 1")]),
    wrong("limit_of_the_text", &[once(F, F, "db.store().limit.get()", "MAX_PATH_LEN")]),
    // item search
    wrong("std_module_by_the_module_search", &[once(F, INNER, "!ctx.is_std_item", "true")]),
    wrong("module_by_the_item_search", &[once(F, INNER, "!ctx.is_std_item", "false")]),
    wrong("item_scope_under_by_crate", &[once(F, INNER, "ctx.crate_root == ctx.from", "true")]),
    wrong("no_item_scope_under_by_crate", &[once(F, INNER, "ctx.crate_root == ctx.from", "false")]),
    wrong(
        "item_not_in_prelude",
        &[once(
            F,
            INNER,
            "let Some(value) = find_in_prelude(",
            "let Some(value) = (|_: &dyn SourceDatabase, _: &DefMap, _: ItemInNs, _: ModuleIdLt<'_>| None::<Choice>)(",
        )],
    ),
    wrong("enum_with_one_less", &[once(F, INNER, "loc.parent.into()), max_len", "loc.parent.into()), max_len - 1")]),
    wrong(
        "variant_by_itself_first",
        &[once(
            F,
            INNER,
            "let loc = variant.lookup(ctx.db);",
            "let loc = variant.lookup(ctx.db); let (mut own, mut seen) = (None, FxHashSet::default()); calculate_best_path(ctx, &mut seen, item, max_len, &mut own); if own.is_some() { return own.map(|it| it.path); }",
        )],
    ),
    wrong(
        "variant_by_its_enum_alone",
        &[once(F, INNER, "return Some(path);", "return Some(path);\n        } else {\n            return None;")],
    ),
    wrong(
        "variant_never_by_its_enum",
        &[once(F, INNER, "= item.as_module_def_id()", "= item.as_module_def_id().filter(|_| false)")],
    ),
    wrong(
        "prelude_before_scope",
        &[once(
            F,
            INNER,
            "if may_be_in_scope {",
            "let early = find_in_prelude(ctx.db, &*ctx.from_def_map, item, ctx.from); if early.is_some() { return early.map(|it| it.path); } if may_be_in_scope {",
        )],
    ),
    wrong(
        "enum_in_values",
        &[once(F, INNER, "ItemInNs::Types(loc.parent.into())", "ItemInNs::Values(loc.parent.into())")],
    ),
    // module search
    wrong("length_1_finds_nothing", &[once(F, MODULE, "max_len == 0", "max_len <= 1")]),
    wrong("root_of_another_crate_is_crate", &[once(F, MODULE, "|| module_crate_root == ctx.crate_root", "|| true")]),
    same(
        "local_root_by_its_extern",
        "a local search meets modules of the viewer's crate alone, whose root is the viewer's",
        &[once(F, MODULE, "!maybe_extern || module", "module")],
    ),
    wrong("externs_forwards", &[once(F, MODULE, ".rev()", "")]),
    wrong(
        "externs_of_the_first_crate",
        &[once(F, MODULE, "ctx.crate_root.local_def_map(ctx.db)", "super::module_id(0).local_def_map(ctx.db)")],
    ),
    wrong("occupied_names_not_seen", &[once(F, MODULE, "if name_already_occupied_in_type_ns", "if false")]),
    wrong("own_name_occupies", &[once(F, MODULE, "id != ModuleDefId", "true || id != ModuleDefId")]),
    wrong(
        "nearest_name_alone_occupies",
        &[once(F, MODULE, ".filter(|&(id, _)|", ".map(|(id, _)|"), once(F, MODULE, ".is_some();", "== Some(true);")],
    ),
    wrong(
        "visible_names_alone_occupy",
        &[once(F, MODULE, "|&(id, _)| id", "|&(id, vis)| vis.is_visible_from(ctx.db, ctx.from) && id")],
    ),
    wrong("absolute_not_preferred", &[once(F, MODULE, "ctx.cfg.prefer_absolute", "false")]),
    wrong("module_scope_under_by_crate", &[once(F, MODULE, "=> ctx.crate_root == ctx.from", "=> true")]),
    wrong("no_module_scope_under_by_crate", &[once(F, MODULE, "=> ctx.crate_root == ctx.from", "=> false")]),
    wrong("module_scope_without_prefix", &[once(F, MODULE, "ctx.prefix.path_kind()", "PathKind::Plain")]),
    wrong(
        "keyword_before_scope",
        &[once(
            F,
            MODULE,
            "if may_be_in_scope {",
            "if may_be_in_scope && !is_kw_kind_relative_to_from(ctx.db, &*ctx.from_def_map, module_id, ctx.from).is_some_and(|kind| ctx.prefix != PrefixKind::ByCrate || kind == PathKind::Crate) {",
        )],
    ),
    wrong("any_keyword_under_by_crate", &[once(F, MODULE, "ctx.prefix != PrefixKind::ByCrate ||", "true ||")]),
    same(
        "no_keyword_under_by_crate",
        "the crate's root, the only module that this keyword stands for, has been answered by the rule for roots",
        &[once(F, MODULE, "|| kind == PathKind::Crate", "")],
    ),
    wrong(
        "module_not_in_prelude",
        &[once(
            F,
            MODULE,
            "let Some(choice) = find_in_prelude(",
            "let Some(choice) = (|_: &dyn SourceDatabase, _: &DefMap, _: ItemInNs, _: ModuleIdLt<'_>| None::<Choice>)(",
        )],
    ),
    wrong("local_search_charged", &[once(F, MODULE, "calculate_best_path_local(", "calculate_best_path(")]),
    // scope, prelude, keywords
    wrong(
        "scope_with_visibility",
        &[
            once(F, "find_in_scope", "|name, _, declared|", "|name, vis, declared|"),
            once(
                F,
                "find_in_scope",
                "(declared || !ignore_local_imports)",
                "((declared || !ignore_local_imports) && vis.is_visible_from(db, from))",
            ),
        ],
    ),
    wrong("local_imports_not_ignored", &[once(F, "find_in_scope", "(declared || !ignore_local_imports)", "true")]),
    wrong("declared_names_alone", &[once(F, "find_in_scope", "|| !ignore_local_imports", "")]),
    wrong("prelude_not_visible", &[once(F, PRELUDE, "!vis.is_visible_from(db, from)", "false")]),
    wrong("prelude_that_clashes", &[once(F, PRELUDE, "if found_and_same_def.unwrap_or(true)", "if true")]),
    wrong("prelude_in_scope_alone", &[once(F, PRELUDE, "unwrap_or(true)", "unwrap_or(false)")]),
    wrong(
        "prelude_by_any_name",
        &[
            once(F, PRELUDE, "(name, vis, _declared)", "(ref name, vis, _declared)"),
            once(
                F,
                PRELUDE,
                "tried(db, prelude_scope, item)",
                "[prelude_scope.names_of(item, |n, v, d| v.is_visible_from(db, from).then(|| (n.clone(), v, d)))]",
            ),
        ],
    ),
    wrong("prelude_clash_in_types", &[once(F, PRELUDE, "per_ns.take_values()? == it", "per_ns.take_types()? == it")]),
    wrong(
        "prelude_of_the_crates_own_map",
        &[once(F, PRELUDE, "local_def_map.prelude()?", "local_def_map.crate_root(db).def_map(db).prelude()?")],
    ),
    same(
        "super_for_crate",
        "the crate's root, the only module that this keyword stands for, has been answered by the rule for roots",
        &[once(F, KEYWORD, "parent_id == def_map.root", "false")],
    ),
    wrong("crate_for_super", &[once(F, KEYWORD, "parent_id == def_map.root", "true")]),
    wrong("no_super", &[once(F, KEYWORD, "item == parent_id", "item == parent_id && parent_id == def_map.root")]),
    wrong("no_self", &[once(F, KEYWORD, "item == from ", "false && item == from ")]),
    same(
        "keyword_for_a_module_in_a_block",
        "the viewer's own module and its parent are in a block where the viewer is",
        &[once(F, KEYWORD, "item.block(db).is_some()", "false")],
    ),
    same(
        "keyword_from_a_block",
        "the viewer's own module and its parent are in a block where the viewer is",
        &[once(F, KEYWORD, "from.block(db).is_some()", "false")],
    ),
    wrong("keyword_in_blocks", &[each(2, F, KEYWORD, ".block(db).is_some()", ".block(db).is_none() && false")]),
    same(
        "keyword_in_another_crate",
        "a module that is the viewer's own or its parent is of its crate",
        &[once(F, KEYWORD, "item.krate(db) != from.krate(db)", "false")],
    ),
    // the tank
    wrong(
        "empty_at_the_last_charge",
        &[once(
            F,
            BEST,
            "ctx.fuel.set(fuel - 1);",
            "if fuel == 1 { ctx.db.store().tank.empty.set(true); } ctx.fuel.set(fuel - 1);",
        )],
    ),
    wrong("empty_not_said", &[once(F, BEST, "ctx.db.store().tank.empty.set(true);", "")]),
    wrong(
        "charge_counted_when_empty",
        &[once(
            F,
            BEST,
            "ctx.db.store().tank.empty.set(true);",
            "ctx.db.store().tank.empty.set(true); ctx.db.store().tank.charge();",
        )],
    ),
    wrong("none_when_empty", &[once("ask", "put", "path.map(|path|", "path.filter(|_| !tank.empty.get()).map(|path|")]),
    wrong("free_when_empty", &[once(F, BEST, "return;", "")]),
    // charged search
    wrong("own_items_by_dependencies", &[once(F, BEST, "item.krate(ctx.db) == Some(ctx.from_crate)", "false")]),
    wrong(
        "own_items_free",
        &[once(
            F,
            BEST,
            "ctx.fuel.set(fuel - 1);",
            "if item.krate(ctx.db) != Some(ctx.from_crate) { ctx.fuel.set(fuel - 1); }",
        )],
    ),
    wrong(
        "charge_after_the_search",
        &[
            once(F, BEST, "if fuel == 0 {", "if fuel == 0 && item.krate(ctx.db) != Some(ctx.from_crate) {"),
            once(F, BEST, "ctx.fuel.set(fuel - 1);", "ctx.fuel.set(fuel.saturating_sub(1));"),
        ],
    ),
    wrong("dependencies_backwards", &[once(F, BEST, "dependencies.iter()", "dependencies.iter().rev()")]),
    wrong("sysroot_not_first", &[once(F, BEST, "else if ctx.is_std_item", "else if false")]),
    wrong("first_dependency_alone", &[once(F, BEST, "dependencies.iter()", "dependencies.iter().take(1)")]),
    wrong("ended_by_a_choice", &[once(F, BEST, "for_each(|dep| {", "for_each(|dep| if best_choice.is_none() {")]),
    wrong(
        "sysroot_ended_by_any_choice",
        &[each(6, F, SYSROOT, "Some(Choice { stability: Stable, .. })", "Some(Choice { .. })")],
    ),
    wrong(
        "sysroot_never_ended",
        &[each(
            6,
            F,
            SYSROOT,
            "Some(Choice { stability: Stable, .. })",
            "Some(Choice { stability: Stable, .. }) if false",
        )],
    ),
    wrong("no_std_ignored", &[once(F, SYSROOT, "ctx.cfg.prefer_no_std", "false")]),
    wrong("no_std_always", &[once(F, SYSROOT, "ctx.cfg.prefer_no_std", "true")]),
    wrong("last_of_a_language", &[once(F, SYSROOT, ".find(|dep| {", ".rev().find(|dep| {")]),
    wrong("language_outside_the_sysroot", &[once(F, SYSROOT, "it.is_sysroot()).find", "true).find")]),
    wrong("sysroot_alone", &[once(F, SYSROOT, "!it.is_sysroot()", "false")]),
    wrong(
        "sysroot_after_the_others",
        &[
            once(F, SYSROOT, "!it.is_sysroot()", "it.is_sysroot()"),
            once(F, SYSROOT, "it.is_sysroot())\n", "!it.is_sysroot())\n"),
        ],
    ),
    wrong(
        "sysroot_in_record_order",
        &[once(F, SYSROOT, "!it.is_sysroot()", "false"), once(F, SYSROOT, "it.is_sysroot())\n", "true)\n")],
    ),
    wrong("languages_alone", &[once(F, SYSROOT, "    dependencies\n", "    dependencies[..0]\n")]),
    wrong("hidden_imports_used", &[once(F, DEP, "if info.is_doc_hidden", "if false")]),
    wrong(
        "hidden_imports_charged",
        &[once(
            F,
            DEP,
            "if info.is_doc_hidden {",
            "if info.is_doc_hidden { let place = info.container; find_path_for_module(ctx, visited_modules, place, true, length_left(max_len, best_choice));",
        )],
    ),
    wrong(
        "unstable_imports_free",
        &[once(
            F,
            DEP,
            "if info.is_doc_hidden",
            "if info.is_doc_hidden || (info.is_unstable && !ctx.cfg.allow_unstable)",
        )],
    ),
    wrong("unstable_imports_allowed", &[once(F, DEP, "!ctx.cfg.allow_unstable", "false")]),
    wrong("unstable_imports_never", &[once(F, DEP, "!ctx.cfg.allow_unstable", "true")]),
    wrong("unstable_as_stable", &[once(F, DEP, "choice.stability = Unstable;", "")]),
    wrong(
        "stability_not_inherited",
        &[once(F, DEP, "cov_mark::hit!(partially_imported);", "choice.stability = Stable;")],
    ),
    wrong("imports_in_the_crate_searched_locally", &[once(F, DEP, "info.container, true,", "info.container, false,")]),
    wrong(
        "imports_of_the_viewers_crate",
        &[once(F, DEP, "ImportMap::of(ctx.db, dep)", "ImportMap::of(ctx.db, ctx.from_crate)")],
    ),
    // the length left
    wrong(
        "length_of_the_caller_alone",
        &[
            once(F, DEP, "length_left(max_len, best_choice)", "max_len - 1"),
            once(F, LOCAL, "length_left(max_len, best_choice)", "max_len - 1"),
        ],
    ),
    wrong("smaller_length_for_imports_alone", &[once(F, LOCAL, "length_left(max_len, best_choice)", "max_len - 1")]),
    wrong("smaller_length_in_the_crate_alone", &[once(F, DEP, "length_left(max_len, best_choice)", "max_len - 1")]),
    wrong(
        "length_of_the_choice_alone",
        &[once(F, "length_left", "max_len.min(choice.path.len())", "choice.path.len()")],
    ),
    wrong(
        "length_of_the_choice_alone_for_imports",
        &[once(
            F,
            DEP,
            "length_left(max_len, best_choice)",
            "best_choice.as_ref().map_or(max_len, |best| best.path.len()) - 1",
        )],
    ),
    wrong(
        "length_of_the_choice_alone_in_the_crate",
        &[once(
            F,
            LOCAL,
            "length_left(max_len, best_choice)",
            "best_choice.as_ref().map_or(max_len, |best| best.path.len()) - 1",
        )],
    ),
    wrong("length_of_names", &[once(F, "length_left", "choice.path.len()", "choice.path.segments.len()")]),
    // choices
    wrong("ties_to_the_later", &[once(F, "try_select", "Ordering::Less | Ordering::Equal =", "Ordering::Less =")]),
    wrong("stability_not_compared", &[once(F, "try_select", ".cmp(&current.stability)", ".cmp(&other.stability)")]),
    wrong("prelude_preferred", &[once(F, "try_select", "if prefer_prelude", "if true")]),
    wrong("prelude_not_preferred", &[once(F, "try_select", "if prefer_prelude", "if false")]),
    wrong(
        "prelude_before_stability",
        &[
            once(F, "try_select", ".cmp(&current.stability)", ".cmp(&other.stability)"),
            once(
                F,
                "try_select",
                ".then_with(|| (current",
                ".then_with(|| other.stability.cmp(&current.stability)).then_with(|| (current",
            ),
        ],
    ),
    wrong(
        "length_before_prelude",
        &[once(
            F,
            "try_select",
            ".then_with(|| {",
            ".then_with(|| current.path.len().cmp(&(1 + other.path.len()))).then_with(|| {",
        )],
    ),
    wrong(
        "newcomer_flag_with_its_last_name",
        &[once(F, "try_select", "match other\n", "other.has_prelude_segment |= name == sym::prelude; match other\n")],
    ),
    wrong(
        "newcomer_keeps_its_last_name",
        &[once(
            F,
            "try_select",
            "other.path.push_segment(name);",
            "other.has_prelude_segment |= name == sym::prelude; other.path.push_segment(name);",
        )],
    ),
    wrong("first_choice_without_its_last_name", &[once(F, "push", "name == sym::prelude", "false")]),
    wrong("first_name_not_prelude", &[once(F, "new", "name == sym::prelude", "false")]),
    wrong("newcomer_one_shorter", &[once(F, "try_select", "other.path.len() + 1", "other.path.len()")]),
    wrong(
        "text_without_the_last_name",
        &[once(F, "try_select", "if let Ordering", "other.path_text_len -= name.as_str().len(); if let Ordering")],
    ),
    wrong(
        "text_not_kept_when_longer",
        &[once(
            F,
            "try_select",
            "Ordering::Greater => {",
            "Ordering::Greater => { other.path_text_len = other.path_text_len.wrapping_sub(name.as_str().len());",
        )],
    ),
    wrong("text_not_kept_when_first", &[once(F, "push", "self.path_text_len += name.as_str().len();", "")]),
    wrong(
        "text_in_characters",
        &[
            each(2, F, "try_select", "name.as_str().len()", "String::from_utf8_lossy(name.as_str()).chars().count()"),
            once(F, "push", "name.as_str().len()", "String::from_utf8_lossy(name.as_str()).chars().count()"),
            once(F, "new", "name.as_str().len()", "String::from_utf8_lossy(name.as_str()).chars().count()"),
        ],
    ),
    wrong("text_of_self_6", &[once(F, "path_kind_len", "=> 4", "=> 6")]),
    wrong("text_of_super_7", &[once(F, "path_kind_len", "* 5", "* 7")]),
    wrong("text_of_crate_7", &[once(F, "path_kind_len", "PathKind::Crate => 5", "PathKind::Crate => 7")]),
    wrong("text_of_a_root_7", &[once(F, MODULE, "path_text_len: 5", "path_text_len: 7")]),
    wrong("text_of_absolute_0", &[once(F, "path_kind_len", "=> 2", "=> 0")]),
    wrong("length_without_crate", &[once("lib", "len", "PathKind::Crate => 1", "PathKind::Crate => 0")]),
    wrong("length_without_super", &[once("lib", "len", "s as usize", "0 * s as usize")]),
    wrong("length_with_self", &[once("lib", "len", "PathKind::Super(s) => s as usize", "PathKind::Super(_) => 1")]),
    wrong("length_with_absolute", &[once("lib", "len", "_ => 0", "PathKind::Abs => 1, _ => 0")]),
    // the walk
    wrong("visited_set_dropped", &[once(F, WALK, "cb(visited_modules, name", "cb(&mut FxHashSet::default(), name")]),
    wrong("visited_set_kept", &[once(F, WALK, "visited_modules.remove(&(item, module));", "let _ = module;")]),
    wrong("visited_set_emptied", &[once(F, WALK, "filter(|&(_, processed)| processed)", "filter(|_| true)")]),
    wrong(
        "visited_modules_whatever_the_item",
        &[once(
            F,
            LOCAL,
            "module_id| {",
            "module_id| { let item = super::item_scope::ItemInNs::Types(unsafe { module_id.to_static() }.into()); if visited_modules.contains(&(item, module_id)) { return; }",
        )],
    ),
    wrong(
        "containing_modules_first",
        &[once(F, WALK, "let mut block_def_map;", "worklist.reverse(); let mut block_def_map;")],
    ),
    wrong("no_containing_modules", &[once(F, WALK, "ctx.from.containing_module(db)", "None::<ModuleIdLt<'_>>")]),
    wrong("parents_alone", &[each(2, F, WALK, "m.containing_module(db)", "m.containing_module_inside_def_map(db)")]),
    wrong("nearest_containing_module_alone", &[once(F, WALK, "|m| m.containing_module(db)", "|_| None")]),
    wrong("no_children", &[once(F, WALK, ".copied()\n", ".copied().take(0)\n")]),
    wrong("children_backwards", &[once(F, WALK, ".copied()\n", ".copied().rev()\n")]),
    wrong("the_viewing_module_too", &[once(F, WALK, "ctx.from.containing_module(db)", "Some(ctx.from)")]),
    wrong(
        "modules_of_other_crates",
        &[
            once(F, WALK, "module.krate(db) != ctx.from.krate(db)", "false"),
            once(F, WALK, "&def_map[module]", "&module.def_map(db)[module]"),
        ],
    ),
    wrong("hidden_modules_entered", &[once(F, WALK, "if vis.is_visible_from(db, ctx.from) {", "if true {")]),
    wrong("modules_not_entered", &[once(F, WALK, "if vis.is_visible_from(db, ctx.from) {", "if false {")]),
    wrong(
        "entered_where_public",
        &[once(F, WALK, "if vis.is_visible_from(db, ctx.from) {", "if vis == Visibility::Public {")],
    ),
    wrong("hidden_names_used", &[once(F, WALK, "&& vis.is_visible_from(db, ctx.from)", "")]),
    wrong(
        "any_visible_name",
        &[
            once(F, WALK, "Some((name, vis,", "Some((ref name, vis,"),
            once(
                F,
                WALK,
                "tried(db, &data.scope, item)",
                "[data.scope.names_of(item, |n, v, d| v.is_visible_from(db, ctx.from).then(|| (n.clone(), v, d)))]",
            ),
        ],
    ),
    wrong("private_imports_used", &[once(F, WALK, "if declared || is_pub_or_explicit", "if true")]),
    wrong(
        "explicit_for_implicit",
        &[
            once(F, WALK, "cov_mark::hit!(explicit_private_imports);", "!"),
            once(F, WALK, "cov_mark::hit!(discount_private_imports);", "!"),
        ],
    ),
    wrong("explicit_not_used", &[once(F, WALK, "cov_mark::hit!(explicit_private_imports);", "!")]),
    wrong("declared_not_enough", &[once(F, WALK, "if declared || is_pub_or_explicit", "if is_pub_or_explicit")]),
    wrong("declared_alone", &[once(F, WALK, "if declared || is_pub_or_explicit", "if declared")]),
    wrong(
        "crate_visibility_is_private",
        &[once(F, WALK, "Visibility::PubCrate(_) => true", "Visibility::PubCrate(_) => false")],
    ),
    same(
        "walk_pushes_visited_modules",
        "a visited module is passed over when its turn comes",
        &[once(F, WALK, "visited_modules.contains(&(item, module))", "false")],
    ),
    // lookups
    wrong(
        "target_does_not_climb",
        &[once("visibility", SEES, "to_module = parent;", ""), once("visibility", SEES, "continue;", "")],
    ),
    wrong("target_climbs_past_the_viewer", &[once("visibility", SEES, "if a == b", "if false && a == b")]),
    wrong("target_climbs_one_block", &[once("visibility", SEES, "continue;", "")]),
    wrong(
        "viewer_stays_in_its_block",
        &[once("visibility", SEES, "match def_map.parent() {", "match def_map.parent().filter(|_| false) {")],
    ),
    wrong(
        "viewer_climbs_no_parents",
        &[once("visibility", SEES, "Some(parent) => from_module = parent,", "Some(_) => return false,")],
    ),
    wrong(
        "visible_in_the_module_alone",
        &[once("visibility", "is_visible_from", "Self::is_visible_from_def_map_(", "(|_, _, _, _| false)(")],
    ),
    wrong("crate_visibility_everywhere", &[once("visibility", "is_visible_from", "== krate", "== krate || true")]),
    wrong(
        "visible_in_any_module_of_the_crate",
        &[once("visibility", "is_visible_from", "Self::is_visible_from_def_map_(", "(|_, _, _, _| true)(")],
    ),
    same(
        "crates_not_compared",
        "the walk stays in the viewer's crate and its target's climb in the target's, so they do not meet",
        &[once("visibility", "is_visible_from", "from_module.krate(db) != to_module.krate(db)", "false")],
    ),
    wrong("last_entry", &[each(3, "item_scope", "name_of", ".iter().find_map", ".iter().rev().find_map")]),
    wrong("last_of_the_names", &[each(3, "item_scope", "names_of", ".find_map(", ".rev().find_map(")]),
    wrong(
        "declared_unless_imported",
        &[each(3, "item_scope", "name_of", "other_def.import.is_none()", "other_def.import.is_some()")],
    ),
    wrong("modules_in_scope_backwards", &[once("item_scope", "modules_in_scope", ".values()", ".values().rev()")]),
    wrong(
        "modules_in_values_too",
        &[once(
            "item_scope",
            "modules_in_scope",
            "self.types.values()",
            "self.types.values().chain(self.values.values())",
        )],
    ),
    wrong(
        "viewing_module_alone",
        &[once(
            "nameres",
            "with_ancestor_maps",
            "let mut block = self.block;",
            "let mut block = self.block.filter(|_| false);",
        )],
    ),
    wrong("nearest_block_alone", &[once("nameres", "with_ancestor_maps", "block = parent.block;", "block = None;")]),
    wrong(
        "blocks_roots_for_parents",
        &[once("nameres", "with_ancestor_maps", "f(parent, block_info.parent)", "f(parent, parent.root)")],
    ),
    wrong(
        "root_of_the_viewers_map",
        &[once("nameres", "crate_root", "Some(_) => crate_def_map(db, self.krate()).root", "Some(_) => self.root")],
    ),
    wrong(
        "imports_backwards",
        &[once(F, DEP, "for info in import_info_for {", "for info in import_info_for.iter().rev() {")],
    ),
    wrong(
        "first_import_alone",
        &[once(F, DEP, "for info in import_info_for {", "for info in import_info_for.iter().take(1) {")],
    ),
    wrong(
        "modules_in_values_are_modules",
        &[once(
            F,
            INNER,
            "(ModuleDefId::ModuleId(module_id)) = item",
            "(ModuleDefId::ModuleId(module_id)) | ItemInNs::Values(ModuleDefId::ModuleId(module_id)) = item",
        )],
    ),
    // old names last
    wrong(
        "old_names_not_last_in_scopes",
        &[once(
            F,
            "find_in_scope",
            "names_tried(db, &def_map[local_id].scope, item,",
            "def_map[local_id].scope.names_of(item,",
        )],
    ),
    wrong(
        "old_names_not_last_in_preludes",
        &[once(F, PRELUDE, "tried(db, prelude_scope, item)", "[prelude_scope.name_of(item)]")],
    ),
    wrong(
        "old_names_not_last_in_walks",
        &[once(F, WALK, "tried(db, &data.scope, item)", "[data.scope.name_of(item)]")],
    ),
    wrong(
        "first_new_name_alone",
        &[
            once(F, PRELUDE, "tried(db, prelude_scope, item)", "tried(db, prelude_scope, item).into_iter().take(1)"),
            once(F, WALK, "tried(db, &data.scope, item)", "tried(db, &data.scope, item).into_iter().take(1)"),
        ],
    ),
    wrong(
        "new_names_of_all_blocks_first",
        &[once(
            F,
            "find_in_scope",
            "def_map.with_ancestor_maps(",
            "let new = def_map.with_ancestor_maps(db, from, &mut |def_map, local_id| super::old_names::new_names(db, &def_map[local_id].scope, item).into_iter().find_map(|(name, _, declared)| (declared || !ignore_local_imports).then(|| name.clone()))); if new.is_some() { return new; } def_map.with_ancestor_maps(",
        )],
    ),
    wrong("old_names_always_last", &[once(OLD, "new_names", "!db.store().old_names_last.get()", "false")]),
    wrong(
        "old_names_never",
        &[
            once(
                OLD,
                "tried",
                "[scope.name_of(item)]",
                "[scope.name_of(item)].into_iter().filter(|_| !db.store().old_names_last.get())",
            ),
            once(
                OLD,
                "names_tried",
                "new.or_else(|| scope.names_of(item, cb))",
                "if db.store().old_names_last.get() { new } else { scope.names_of(item, cb) }",
            ),
        ],
    ),
    wrong("last_new_name", &[once(OLD, "not_deprecated", "entries.iter().filter", "entries.iter().rev().filter")]),
    wrong("declared_names_are_new", &[once(OLD, "not_deprecated", "!item.deprecated", "item.import.is_none()")]),
];

/// Flips that no input tells, with the reason.
pub const SAME_FLIPS: &[(&str, &str)] = &[
    ("flip_find_path_329_39_or", IN_ONE_MAP),
    ("flip_find_path_329_67_or", IN_ONE_MAP),
    (
        "flip_find_path_662_39_false",
        "what is pushed was not visited at entry, so that nothing of the caller's is given up",
    ),
];

const IN_ONE_MAP: &str = "the viewer's own module and its parent are of the viewer's map, in a block or not";
