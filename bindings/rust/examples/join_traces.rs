//! Makes one trace of the parts that several members wrote, for `confer audit`: join_traces PART PART .. > TRACE

use std::env;
use std::fs;
use std::process::ExitCode;

/// A part of a trace, by one member.
struct Part<'a> {
    group: &'a str,
    member: u32,
    lines: Vec<&'a str>,
}

/// Its lines are `cbcast ..`, `member I entries C`, C entries, `end`. Whether they are entries is for the audit to say.
fn part_in(text: &str) -> Option<Part<'_>> {
    let lines: Vec<&str> = text.strip_suffix('\n')?.split('\n').collect();
    let (group, rest) = lines.split_first()?;
    let (last, lines) = rest.split_last()?;
    let (member, entries) = lines.first()?.strip_prefix("member ")?.split_once(" entries ")?;
    let count: usize = entries.parse().ok()?;
    let is_part = group.starts_with("cbcast 1 ") && *last == "end" && lines.len() == count.checked_add(1)?;
    is_part.then_some(Part { group, member: member.parse().ok()?, lines: lines.to_vec() })
}

/// One trace, with the members in the order of their numbers.
fn joined(parts: &[(String, String)]) -> Result<String, String> {
    let mut members = Vec::new();
    for (path, text) in parts {
        members.push(part_in(text).ok_or(format!("{path}: no part of a trace by one member"))?);
    }
    members.sort_by_key(|part| part.member);
    let group = members.first().ok_or("the words are the files of the parts")?.group;
    if let Some(other) = members.iter().find(|part| part.group != group) {
        return Err(format!("member {} is of another group: {} and not {group}", other.member, other.group));
    }
    if let Some(pair) = members.windows(2).find(|pair| pair[0].member == pair[1].member) {
        return Err(format!("there are two parts of member {}", pair[0].member));
    }
    let lines: Vec<&str> = members.iter().flat_map(|part| part.lines.iter().copied()).collect();
    Ok(format!("{group}\n{}\nend\n", lines.join("\n")))
}

fn read_all() -> Result<Vec<(String, String)>, String> {
    let read = |path: String| match fs::read_to_string(&path) {
        Ok(text) => Ok((path, text)),
        Err(fault) => Err(format!("{path}: {fault}")),
    };
    env::args().skip(1).map(read).collect()
}

fn main() -> ExitCode {
    match read_all().and_then(|parts| joined(&parts)) {
        Ok(trace) => {
            print!("{trace}");
            ExitCode::SUCCESS
        }
        Err(fault) => {
            eprintln!("join_traces: {fault}");
            ExitCode::from(2)
        }
    }
}

#[cfg(test)]
mod tests {
    use super::*;

    const HEAD: &str = "cbcast 1 group 7 size 3 window 4\n";
    const FIRST: &str = "member 0 entries 1\ncast 1107000100026869\n";
    const SECOND: &str = "member 1 entries 2\narrive 1107000100026869 0.1\ncast 1107010101000102796f\n";
    const THIRD: &str = "member 2 entries 2\narrive 1107010101000102796f -\narrive 1107000100026869 0.1 1.1\n";

    fn parts(texts: &[String]) -> Vec<(String, String)> {
        texts.iter().map(|text| ("part".into(), text.clone())).collect()
    }

    #[test]
    fn parts_in_any_order_are_one_trace() {
        let texts = [THIRD, FIRST, SECOND].map(|part| format!("{HEAD}{part}end\n"));
        let page = format!("{HEAD}{FIRST}{SECOND}{THIRD}end\n");
        assert_eq!(joined(&parts(&texts)), Ok(page));
    }

    #[test]
    fn what_is_no_part_of_the_trace_is_refused() {
        let whole = format!("{HEAD}{FIRST}end\n");
        let other = format!("cbcast 1 group 8 size 3 window 4\n{SECOND}end\n");
        let rows = [
            (vec![], "the words are the files of the parts"),
            (vec![format!("{HEAD}{FIRST}")], "part: no part of a trace by one member"),
            (vec![format!("{HEAD}{FIRST}{SECOND}end\n")], "part: no part of a trace by one member"),
            (vec![whole.clone(), whole.clone()], "there are two parts of member 0"),
            (
                vec![whole, other],
                "member 1 is of another group: \
                 cbcast 1 group 8 size 3 window 4 and not cbcast 1 group 7 size 3 window 4",
            ),
        ];
        for (texts, fault) in rows {
            assert_eq!(joined(&parts(&texts)), Err(fault.into()));
        }
    }
}
