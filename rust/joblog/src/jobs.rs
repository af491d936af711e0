//! The jobs of a release: every file below a folder, symbolic links followed, by name.
use std::{
    fs,
    path::{Path, PathBuf},
};

fn below(root: &Path, at: &Path, above: &[PathBuf], out: &mut Vec<String>) -> Result<(), String> {
    let folder = root.join(at);
    let told = |e: std::io::Error| format!("{}: {}", folder.display(), e);
    let real = folder.canonicalize().map_err(told)?;
    if above.contains(&real) {
        return Err(format!("{}: a link to a folder that it is in", folder.display()));
    }
    let above = [above, &[real]].concat();
    for entry in fs::read_dir(&folder).map_err(told)? {
        let path = at.join(entry.map_err(told)?.file_name());
        let told = |e: std::io::Error| format!("{}: {}", root.join(&path).display(), e);
        let what = fs::metadata(root.join(&path)).map_err(told)?;
        match what.is_dir() {
            true => below(root, &path, &above, out)?,
            false if !what.is_file() => return Err(format!("{}: no regular file", root.join(&path).display())),
            false => match path.to_str().filter(|p| !p.contains('\n')) {
                Some(p) => out.push(p.into()),
                None => return Err(format!("{:?}: a job's name is UTF-8 without a line break", path)),
            },
        }
    }
    Ok(())
}

/// The names below `root`, sorted. A file that cannot be looked at and a link in a circle are errors.
pub fn names(root: &Path) -> Result<Vec<String>, String> {
    let mut out = vec![];
    below(root, Path::new(""), &[], &mut out)?;
    out.sort();
    Ok(out)
}
