//! What `--version` of neon-equal and of neon-prove tells: the commit, by git if there is one, and the kit that proved the library, by `rt version` if
//! there is one. NEON_EQUAL_COMMIT and NEON_EQUAL_KIT name them if neither is available.
use std::process::Command;

/// The first line that a program writes.
fn line(program: &str, args: &[&str]) -> Option<String> {
    let run = Command::new(program).args(args).output().ok().filter(|run| run.status.success())?;
    let text = String::from_utf8(run.stdout).ok()?;
    text.lines().next().map(str::to_string).filter(|line| !line.is_empty())
}

fn main() {
    let commit = std::env::var("NEON_EQUAL_COMMIT").ok().or_else(|| line("git", &["describe", "--always", "--dirty", "--abbrev=12", "--exclude=*"]));
    let kit = std::env::var("NEON_EQUAL_KIT").ok().or_else(|| line("rt", &["version"]));
    println!("cargo::rustc-env=NEON_EQUAL_COMMIT={}", commit.as_deref().unwrap_or("unknown"));
    println!("cargo::rustc-env=NEON_EQUAL_KIT={}", kit.as_deref().unwrap_or("unknown"));
    for name in ["NEON_EQUAL_COMMIT", "NEON_EQUAL_KIT"] {
        println!("cargo::rerun-if-env-changed={name}");
    }
    // a new commit is detected if git keeps its head in a file
    for file in ["HEAD", "logs/HEAD"] {
        if let Some(path) = line("git", &["rev-parse", "--git-path", file]).filter(|path| std::path::Path::new(path).exists()) {
            println!("cargo::rerun-if-changed={path}");
        }
    }
}
