//! The MIR of a crate: what every compiler of it is given. It is read as text: a list of pairs of a
//! name and a definition, which begins with the number of its lifetimes.

use std::collections::BTreeSet;

/// How a body goes on in more than one way, or more than once.
const BRANCHES: [&str; 5] = ["If", "Switch", "Block", "Loop", "Exit"];

/// What stands before the name of a function that is called, and what behind one that is defined.
const CALLED: &str = "{\"Fn\":[\"";
const DEFINED: &str = "\",{\"lifetimes\":";

/// The function, and all that it calls, directly or through others. Fails for one that is not
/// defined here.
pub fn reached<'a>(mir: &'a str, function: &'a str) -> Result<BTreeSet<&'a str>, String> {
    let mut found = BTreeSet::new();
    let mut open = vec![function];
    while let Some(name) = open.pop() {
        if found.insert(name) {
            open.extend(quoted(body(mir, name)?, CALLED));
        }
    }
    Ok(found)
}

/// The forms of branches that a function has.
pub fn branches(mir: &str, function: &str) -> Result<Vec<&'static str>, String> {
    let body = body(mir, function)?;
    Ok(BRANCHES.into_iter().filter(|form| body.contains(&format!("\"{form}\""))).collect())
}

/// The functions of the same crate that may know a byte before all are looked at: they are no part
/// of the function, and read memory or call a part of it in place of the whole.
pub fn bypasses<'a>(mir: &'a str, function: &'a str) -> Result<Vec<&'a str>, String> {
    let parts = reached(mir, function)?;
    let start = format!("[\"{}::", function.split("::").next().unwrap_or(function));
    let named = mir.match_indices(&start).map(|(at, _)| &mir[at + "[\"".len()..]);
    let names = named.filter_map(|rest| {
        let name = rest.split('"').next()?;
        rest[name.len()..].starts_with(DEFINED).then_some(name)
    });
    let mut found = Vec::new();
    for name in names.filter(|name| !parts.contains(name)) {
        let body = body(mir, name)?;
        let is_part = |callee: &&str| *callee != function && parts.contains(callee);
        if body.contains("\"Deref\"") || quoted(body, CALLED).iter().any(is_part) {
            found.push(name);
        }
    }
    Ok(found)
}

fn body<'a>(mir: &'a str, function: &str) -> Result<&'a str, String> {
    let start = format!("[\"{function}{DEFINED}");
    let at = mir.find(&start).ok_or(format!("{function} has no MIR"))?;
    let definition = &mir[at..];
    let mut depth = 0;
    let end = definition.find(|c| {
        depth += i32::from(c == '[') - i32::from(c == ']');
        depth == 0
    });
    Ok(&definition[..end.ok_or(format!("the MIR of {function} does not end"))?])
}

/// What stands behind each `start`, up to the closing quote.
fn quoted<'a>(text: &'a str, start: &str) -> Vec<&'a str> {
    text.split(start).skip(1).filter_map(|rest| rest.split('"').next()).collect()
}

#[cfg(test)]
mod tests {
    use super::*;

    const MIR: &str = concat!(
        r#"[["c::low",{"lifetimes":0,"body":["Return"]}],"#,
        r#"["c::sum",{"lifetimes":0,"body":["Seq",{"Call":[{"Fn":["c::low",{}]},[]]},"Return"]}],"#,
        r#"["c::test",{"lifetimes":0,"body":["Seq",{"Call":[{"Fn":["c::sum",{}]},[]]},"#,
        r#"{"If":{"Copy":{"local":2,"steps":[]}}},"Return","Skip"]}]]"#
    );

    #[test]
    fn callees_are_reached_and_callers_are_not() {
        assert_eq!(reached(MIR, "c::sum"), Ok(BTreeSet::from(["c::sum", "c::low"])));
        assert_eq!(reached(MIR, "c::test").map(|found| found.len()), Ok(3));
    }

    #[test]
    fn a_branch_belongs_to_its_own_function() {
        assert_eq!(branches(MIR, "c::sum"), Ok(vec![]));
        assert_eq!(branches(MIR, "c::test"), Ok(vec!["If"]));
    }

    #[test]
    fn a_caller_of_the_whole_is_no_bypass() {
        assert_eq!(bypasses(MIR, "c::sum"), Ok(vec![]));
    }

    #[test]
    fn a_caller_of_a_part_and_a_reader_are_bypasses() {
        let part = MIR.replace("{\"Fn\":[\"c::sum\"", "{\"Fn\":[\"c::low\"");
        assert_eq!(bypasses(&part, "c::sum"), Ok(vec!["c::test"]));
        let reader = MIR.replace("\"steps\":[]", "\"steps\":[{\"Deref\":{\"Int\":8}}]");
        assert_eq!(bypasses(&reader, "c::sum"), Ok(vec!["c::test"]));
        let elsewhere = reader.replace("c::test", "d::test");
        assert_eq!(bypasses(&elsewhere, "c::sum"), Ok(vec![]));
    }

    #[test]
    fn a_function_without_mir_is_no_success() {
        assert!(reached(MIR, "c::other").is_err());
        assert!(branches(MIR, "c::other").is_err());
        assert!(bypasses(MIR, "c::other").is_err());
    }
}
