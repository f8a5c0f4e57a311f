//! Every public function of the libraries has an `ensures`, and none has a `requires` but those that
//! docs/STATEMENTS.md calls inner.

use pages::contracts::{EntryPoints, PAGE, called, faults};
use pages::sources::{Declaration, declared, public_functions};
use pages::tree::Tree;

/// The tree where a function has more before its `ensures`; a tab stands for its indentation.
fn with_more(tree: &Tree, function: &Declaration, more: &str) -> Tree {
    let lines = tree.text(&function.file).lines().enumerate();
    let lines = lines.map(|(at, line)| {
        let indentation = &line[..line.len() - line.trim_start().len()];
        let is_contract = function.lines.contains(&at) && line.contains("ensures");
        let more = more.replace('\t', indentation);
        let before = if is_contract { more.as_str() } else { "" };
        format!("{before}{line}\n")
    });
    tree.with(&function.file, &lines.collect::<String>())
}

/// Whether a fault is found in a tree that begins so.
fn is_found(tree: &Tree, start: &str) -> bool {
    faults(tree).iter().any(|fault| fault.starts_with(start))
}

/// Whether a fault is found that begins so, where the page has other words.
fn is_found_on_page(tree: &Tree, from: &str, to: &str, start: &str) -> bool {
    let page = tree.text(PAGE);
    assert!(page.contains(from), "{from}");
    is_found(&tree.with(PAGE, &page.replacen(from, to, 1)), start)
}

#[test]
fn the_contracts_are_as_the_page_says() {
    let tree = Tree::here();
    assert_eq!(faults(&tree), [""; 0]);
    assert!(public_functions(&tree).len() > 70);
    assert!(EntryPoints::of(&tree).calls.len() > 20);
}

#[test]
fn a_requires_is_found_in_any_function_that_is_not_inner() {
    let tree = Tree::here();
    let listed = EntryPoints::of(&tree);
    for function in public_functions(&tree) {
        let path = &function.path;
        for more in ["\trequires { a }\n", "\trequires {\n\t    a\n\t}\n"] {
            let spoiled = with_more(&tree, &function, more);
            let is_found = is_found(&spoiled, &format!("{path} has a requires"));
            assert_ne!(is_found, listed.is_inner(&function), "{path}");
        }
        let comment = with_more(&tree, &function, "\t// requires { a }\n");
        assert!(!is_found(&comment, path), "{path}");
    }
}

#[test]
fn an_ensures_is_missed_in_any_function() {
    let tree = Tree::here();
    for function in public_functions(&tree) {
        let fault = format!("{} has no ensures", function.path);
        let spoiled = with_more(&tree, &function, "//");
        assert!(is_found(&spoiled, &fault), "{fault}");
    }
}

#[test]
fn a_function_without_a_contract_is_found_in_any_file() {
    let tree = Tree::here();
    for function in public_functions(&tree) {
        let method = "impl A {\n    pub fn added(\n        self,\n    )\n    {\n    }\n}\n";
        for added in ["pub fn added() {\n}\n", method] {
            let source = format!("{}\n{added}", tree.text(&function.file));
            let faults = faults(&tree.with(&function.file, &source));
            let is_fault = |fault: &String| fault.ends_with("::added has no ensures");
            assert!(faults.iter().any(is_fault), "{}", function.file);
        }
    }
}

#[test]
fn a_function_of_the_c_boundary_is_missed_in_the_table() {
    let tree = Tree::here();
    for function in public_functions(&tree).iter().filter(|found| found.is_c()) {
        let (path, cell) = (&function.path, format!("| `{}` |", function.name()));
        assert!(is_found_on_page(&tree, &cell, "| |", path), "{path}");
    }
}

#[test]
fn a_call_of_the_table_is_there_and_public_and_not_inner() {
    let tree = Tree::here();
    let listed = EntryPoints::of(&tree);
    let declared = declared(&tree);
    let functions = declared.iter().filter(|found| found.has("fn"));
    let (public, private): (Vec<_>, Vec<_>) =
        functions.partition(|found| found.is_public_function());
    let inner = public.into_iter().find(|found| listed.is_inner(found));
    let others = [called(inner.expect("one")), called(private[0]), "nowhere"];
    for (call, other) in listed
        .calls
        .iter()
        .flat_map(|call| others.map(|other| (call, other)))
    {
        let [from, to] = [call, other].map(|name| format!("| `{name}` |"));
        assert!(
            is_found_on_page(&tree, &from, &to, other),
            "{call}, {other}"
        );
    }
}

#[test]
fn an_inner_module_is_there_and_asks_something() {
    let tree = Tree::here();
    let listed = EntryPoints::of(&tree);
    let functions = public_functions(&tree);
    let strict = functions.iter().filter(|found| !listed.is_inner(found));
    let modules = strict.filter_map(|found| Some(found.path.rsplit_once("::")?.0));
    for other in modules.chain(["nowhere"]) {
        let list = format!("\nInner: `{other}`, ");
        assert!(
            is_found_on_page(&tree, "\nInner: ", &list, other),
            "{other}"
        );
    }
}

#[test]
fn a_module_that_asks_something_is_missed_where_it_is_not_inner() {
    let tree = Tree::here();
    let (_, list) = tree.text(PAGE).split_once("\nInner: ").expect("a list");
    for module in EntryPoints::of(&tree).inner {
        let shorter = list.replacen(&format!("`{module}`"), "", 1);
        assert!(is_found_on_page(&tree, list, &shorter, module), "{module}");
    }
}
