//! A member's part of a trace. docs/PROGRAM.md has the form.

use jolunza::Member;
use std::fs::File;
use std::io::{self, BufWriter, Write};

/// Writes the part to a file that is not there yet, and answers how many entries it has.
pub fn write_part(path: &str, member: &Member) -> io::Result<usize> {
    let mut out = BufWriter::new(File::create_new(path)?);
    let (settings, entries) = (member.settings(), member.counts().entries);
    writeln!(out, "cbcast 1 group {} size {} window {}", settings.group, settings.size, settings.window)?;
    writeln!(out, "member {} entries {entries}", settings.me)?;
    for index in 0..entries {
        out.write_all(member.journal_line(index).map_err(io::Error::other)?.as_bytes())?;
    }
    writeln!(out, "end")?;
    out.flush()?;
    Ok(entries)
}
