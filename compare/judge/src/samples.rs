//! The stored samples: readable traces with the lines that they have to print.

use crate::admit::Admit;
use crate::program::{Program, Show};
use original::Build;
use std::fs;
use std::path::{Path, PathBuf};

/// Checks every `.txt` of a folder; the text says what was checked.
pub fn check(folder: &Path) -> Result<String, String> {
    let listed = fs::read_dir(folder).map_err(|error| format!("{}: {error}", folder.display()))?;
    let mut texts: Vec<PathBuf> = listed.flatten().map(|entry| entry.path()).collect();
    texts.retain(|path| path.extension().is_some_and(|ending| ending == "txt"));
    texts.sort();
    if texts.is_empty() {
        return Err(format!("{}: no samples", folder.display()));
    }
    let mut out = String::new();
    for path in &texts {
        let told = one(path).map_err(|what| format!("{}: {what}", path.display()))?;
        out.push_str(&format!(
            "{}: {told}\n",
            path.file_name().unwrap_or_default().to_string_lossy()
        ));
    }
    Ok(out)
}

fn text(path: &Path) -> Result<String, String> {
    fs::read_to_string(path).map_err(|error| format!("{}: {error}", path.display()))
}

fn one(path: &Path) -> Result<String, String> {
    let trace = form::encode(&text(path)?).map_err(|fault| fault.to_string())?;
    let expected = text(&path.with_extension("expected"))?;
    let mut programs = vec![("second", Program::Second)];
    if original::present() && Admit::ordered_domain().admits(&trace) {
        programs.push(("original-ordered", Program::Original(Build::Ordered)));
    }
    if original::present() && Admit::domain().admits(&trace) {
        programs.push(("original", Program::Original(Build::Published)));
    }
    for (name, program) in &programs {
        same(&trace, &expected, program).map_err(|what| format!("{name}: {what}"))?;
    }
    let names: Vec<&str> = programs.iter().map(|(name, _)| *name).collect();
    Ok(format!(
        "{} lines, {}",
        expected.lines().count(),
        names.join(", ")
    ))
}

/// The plan's lines have to be the expected ones exactly; expected detail lines have to come in that order.
fn same(trace: &[u8], expected: &str, program: &Program) -> Result<(), String> {
    let plan: Vec<&str> = expected
        .lines()
        .filter(|line| !line.starts_with('#'))
        .collect();
    let printed = program.answer(trace, Show::default());
    let printed: Vec<&str> = printed.lines().collect();
    if let Some(at) = (0..plan.len().max(printed.len())).find(|&at| plan.get(at) != printed.get(at))
    {
        let shown =
            |line: Option<&&str>| line.map_or("nothing".to_string(), |text| format!("`{text}`"));
        return Err(format!(
            "line {}: expected {}, printed {}",
            at + 1,
            shown(plan.get(at)),
            shown(printed.get(at))
        ));
    }
    let detailed = program.answer(
        trace,
        Show {
            details: true,
            events: false,
        },
    );
    let mut lines = detailed.lines();
    match expected
        .lines()
        .find(|line| !lines.any(|printed| printed == *line))
    {
        Some(missing) => Err(format!("`{missing}` is not printed, or not in this order")),
        None => Ok(()),
    }
}
