//! The page of results. Only what is between its two marks is written anew; the rest is kept by hand.

use std::fs;
use std::path::Path;

const BEGIN: &str = "<!-- measured: what follows is written by bench/run -->\n";
const END: &str = "<!-- measured: end -->\n";

pub fn write(path: &Path, report: &str) -> Result<(), String> {
    let fault = |what: String| format!("{}: {what}", path.display());
    let page = fs::read_to_string(path).map_err(|error| fault(error.to_string()))?;
    let missing = || fault("has not the marks that the results stand between".to_string());
    let (before, rest) = page.split_once(BEGIN).ok_or_else(missing)?;
    let (_, after) = rest.split_once(END).ok_or_else(missing)?;
    let page = format!("{before}{BEGIN}\n{report}\n{END}{after}");
    fs::write(path, page).map_err(|error| fault(error.to_string()))
}
