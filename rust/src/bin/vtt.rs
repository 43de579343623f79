//! `vtt`: one command over the proved library, for whole episodes: list, mend, check, rewrite. What is here is arguments, files and words, tested and
//! not proved. The rules of WebVTT are the library's, and where a command must know one (is this a time, has this setting an effect), it asks the
//! library; the few that it knows itself are listed in `docs/DECISIONS.md`.

/// The parts of the command.
mod vtt {
    pub mod arguments;
    pub mod check;
    pub mod diff;
    pub mod failure;
    pub mod files;
    pub mod help;
    pub mod list;
    pub mod mend;
    pub mod probes;
    pub mod raw_lines;
    pub mod refusals;
    pub mod screen;
    pub mod tree;
    pub mod warnings;
}

use std::path::{Path, PathBuf};
use std::process::ExitCode;
use vtt::arguments::{parse, Command, Output};
use vtt::failure::{Failure, DONE, MISUSED};
use vtt::{check, files, help, list, mend, refusals, screen, tree, warnings};

fn main() -> ExitCode {
    let status = match parse(std::env::args_os().skip(1)) {
        Ok(command) => run(command).unwrap_or_else(|failure| {
            failure.tell();
            failure.status
        }),
        Err(misuse) => {
            let name = misuse.command.map(|name| name.word());
            let program = name.map_or("vtt".into(), |name| format!("vtt {name}"));
            screen::tell(&format!("{program}: {}; {program} --help says how it is used", misuse.sentence));
            MISUSED
        }
    };
    ExitCode::from(status)
}

fn run(command: Command) -> Result<u8, Failure> {
    match command {
        Command::List { file, json } => {
            let read = read(&file)?;
            list::print(&files::name(&file), &read, json)
        }
        Command::Tree { file, cue } => tree::print(&files::name(&file), &read(&file)?, &cue),
        Command::Mend { file, cue, changes, output, quiet } => mend::run(&file, &cue, &changes, &output, quiet),
        Command::Rewrite { files, output, quiet } => rewrite(&files, &output, quiet),
        Command::Check { files, strict, all, quiet } => check::run(&files, strict, all, quiet),
        Command::Plain { file, output } => {
            let raw = files::read(&file)?;
            let text = spatzenherd::convert(&raw).map_err(|refusal| refusals::of_reading(&files::name(&file), &raw, &refusal))?;
            files::put_out(&output, text.as_bytes())
        }
        Command::Help(name) => files::print(help::of(name).as_bytes()),
        Command::Version => files::print(help::version().as_bytes()),
    }
}

fn read(file: &Path) -> Result<spatzenherd::File, Failure> {
    refusals::accepted(&files::name(file), &files::read(file)?)
}

/// Each file in the one written form. A file that is refused does not keep the others from being rewritten.
fn rewrite(all: &[PathBuf], output: &Output, quiet: bool) -> Result<u8, Failure> {
    let mut worst = DONE;
    let mut done = 0;
    for file in all {
        match rewrite_one(file, output, quiet) {
            Ok(()) => done += 1,
            Err(failure) => {
                failure.tell();
                worst = worst.max(failure.status);
            }
        }
    }
    if all.len() > 1 && !quiet {
        screen::tell(&format!("{} files: {done} rewritten, {} not", all.len(), all.len() - done));
    }
    Ok(worst)
}

fn rewrite_one(file: &Path, output: &Output, quiet: bool) -> Result<(), Failure> {
    let name = files::name(file);
    let raw = files::read(file)?;
    let read = refusals::accepted(&name, &raw)?;
    let new = read.write().map_err(|refusal| refusals::of_writing(&name, &read, &refusal))?;
    let lost = warnings::failed_timing_lines(&read).count();
    if lost > 0 && !quiet {
        screen::tell(&format!("{name}: note: blocks whose timing line is not read are left out: {lost}; vtt check says where"));
    }
    let Output::InPlace { backup } = output else {
        return files::put_out(output, &new).map(|_| ());
    };
    let kept = files::replace(file, &raw, &new, *backup, |found| {
        let again = spatzenherd::File::read(found).map_err(|refusal| refusal.to_string())?;
        if mend::same_lists(&read, &again) {
            Ok(())
        } else {
            Err("it does not read as the old one".into())
        }
    })?;
    if !quiet {
        screen::tell(&format!("{name}: rewritten{}", files::kept_words(&kept)));
    }
    Ok(())
}
