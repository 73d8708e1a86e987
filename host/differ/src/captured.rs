//! The captured exchanges, one file for each: tests/captures/README.md says what a file has.
use std::collections::HashMap;
use std::fs;
use std::path::Path;

pub struct Capture {
    pub name: String,
    fields: HashMap<String, String>,
}

impl Capture {
    fn read(path: &Path) -> Result<Capture, String> {
        let name = path.file_stem().unwrap_or_default().to_string_lossy().into_owned();
        let text = fs::read_to_string(path).map_err(|e| format!("{}: {}", name, e))?;
        let pairs = text.lines().filter_map(|l| l.split_once(' '));
        Ok(Capture { name, fields: pairs.map(|(k, v)| (k.into(), v.into())).collect() })
    }

    pub fn word(&self, field: &str) -> Result<&str, String> {
        self.fields.get(field).map(|s| &s[..]).ok_or(format!("no field {}", field))
    }

    pub fn bytes(&self, field: &str) -> Result<Vec<u8>, String> {
        let s = self.word(field)?;
        if s == "-" {
            return Ok(Vec::new());
        }
        let digit = |i: usize| u8::from_str_radix(s.get(i..i + 2).unwrap_or("?"), 16).map_err(|_| format!("{}: bad hex", field));
        (0..s.len()).step_by(2).map(digit).collect()
    }
}

/// Every capture of a folder, by their names.
pub fn all(folder: &str) -> Result<Vec<Capture>, String> {
    let entries = fs::read_dir(folder).map_err(|e| format!("{}: {}", folder, e))?;
    let mut paths: Vec<_> = entries.filter_map(|e| e.ok()).map(|e| e.path()).filter(|p| p.extension().is_some_and(|x| x == "txt")).collect();
    paths.sort();
    paths.iter().map(|path| Capture::read(path)).collect()
}
