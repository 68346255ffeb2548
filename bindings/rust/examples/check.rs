//! Says whether certificates and SSH signatures are valid, or what is wrong first. OpenSSL's
//! libcrypto verifies.

use std::env;
use std::ffi::{OsStr, OsString};
use std::fmt;
use std::fs;
use std::io::{self, BufRead, Read, Write};
use std::os::unix::ffi::OsStrExt;
use std::path::Path;
use std::process::ExitCode;
use std::time::{SystemTime, UNIX_EPOCH};

use rafendilo::{NoKey, Principal, Sha256, Status};

const USAGE: &str = "\
Says whether certificates and SSH signatures are valid, or what is wrong first.

    check certificates AUTHORITIES PRINCIPAL|- [SECOND] <id_ed25519-cert.pub
    check signature SIGNERS NAMESPACE FILE <FILE.sig

AUTHORITIES and SIGNERS are files of public keys, a line each. The first answers of each line of
its input. The status is 0 if all is valid, 1 if not, and 2 where it can't tell: so also where there
is no certificate. A valid certificate may be for a host, or for nobody by name, and - is no name
that a client may choose: who logs users in calls `rafendilo::log_in`.
";

// ---- what is read

/// The certificate of a line. Fails where it is a line of none, and with [`Status::LABEL`] for a
/// key.
fn read(line: &[u8]) -> Result<Vec<u8>, Status> {
    let found = rafendilo::read_line(line)?;
    if !found.is_certificate {
        return Err(Status::LABEL);
    }
    Ok(found.blob)
}

/// Why the program can't tell.
type Untold = Box<dyn std::error::Error>;

/// The fault of a file.
fn of_file(path: &Path, fault: impl fmt::Display) -> Untold {
    format!("{}: {fault}", path.display()).into()
}

/// The fingerprints of the keys in a file; of a line with a later kind of key it says that it
/// passes over it. Fails where the file can't be read, and where a line is no key.
fn fingerprints(path: &Path) -> Result<Vec<Sha256>, Untold> {
    let text = fs::read(path).map_err(|fault| of_file(path, fault))?;
    let found = rafendilo::authorities(&text).map_err(|fault| no_key(path, fault))?;
    for line in found.later_lines {
        let why = "a later kind of key, which is not read";
        writeln!(io::stderr(), "check: {}:{line}: {why}", path.display())?;
    }
    Ok(found.keys)
}

/// The fault of a file, of which a line is no key, or of which that can't be told.
fn no_key(path: &Path, fault: NoKey) -> Untold {
    let said = fault.status.meaning();
    match fault.status {
        Status::MEMORY => of_file(path, said),
        _ => format!("{}:{}: no key: {said}", path.display(), fault.line).into(),
    }
}

/// The second of the digits, or else now. Fails where there is another character, or none.
fn second_of(word: Option<&OsString>) -> Result<u64, Untold> {
    let word = match word {
        None => return Ok(SystemTime::now().duration_since(UNIX_EPOCH)?.as_secs()),
        Some(word) => word.to_string_lossy(),
    };
    // parse takes a sign, too
    let digits = Some(&*word).filter(|it| it.bytes().all(|byte| byte.is_ascii_digit()));
    digits.and_then(|it| it.parse().ok()).ok_or_else(|| format!("{word:?} is no second").into())
}

// ---- what is said

/// The line for what is valid, or for what is wrong first.
pub(crate) fn line_for(answer: Result<(), Status>) -> String {
    answer.map_or_else(|refusal| format!("refused: {refusal}"), |()| String::from("valid"))
}

/// Says whether something is valid, and returns that. Fails where memory was refused, and where
/// nothing can be written.
fn say(output: &mut impl Write, answer: Result<(), Status>) -> Result<bool, Untold> {
    if answer == Err(Status::MEMORY) {
        return Err(Status::MEMORY.meaning().into());
    }
    writeln!(output, "{}", line_for(answer))?;
    Ok(answer.is_ok())
}

/// Says of each line of the input what the function does of its certificate, and returns whether
/// all are valid. Fails where there is no line.
fn say_of_lines(check: impl Fn(&[u8]) -> Result<(), Status>) -> Result<bool, Untold> {
    let (mut input, mut output) = (io::stdin().lock(), io::stdout().lock());
    let (mut line, mut are_valid, mut is_empty) = (Vec::new(), true, true);
    while input.read_until(b'\n', &mut line)? > 0 {
        let said = read(&line).and_then(|it| check(&it));
        are_valid &= say(&mut output, said)?;
        is_empty = false;
        line.clear();
    }
    if is_empty {
        return Err("no certificate was given".into());
    }
    output.flush()?;
    Ok(are_valid)
}

/// Whether all are valid.
fn certificates(authorities: &OsStr, principal: &OsStr, second: u64) -> Result<bool, Untold> {
    let by = fingerprints(authorities.as_ref())?;
    let whom = match principal.as_bytes() {
        b"-" => Principal::Any,
        name => Principal::Named(name),
    };
    say_of_lines(|certificate| {
        rafendilo::check_certificate(certificate, second, whom, &by, rafendilo::is_signature)
    })
}

/// Whether it is valid.
fn signature(signers: &OsStr, namespace: &OsStr, file: &OsStr) -> Result<bool, Untold> {
    let mut armour = Vec::new();
    io::stdin().lock().read_to_end(&mut armour)?;
    let (given, by) = (rafendilo::read_armour(&armour)?, fingerprints(signers.as_ref())?);
    let message = fs::read(file).map_err(|fault| of_file(file.as_ref(), fault))?;
    let name = namespace.to_str().ok_or("the namespace is not UTF-8")?;
    let answer = rafendilo::check_sshsig(&given, name, &message, &by, rafendilo::is_signature);
    let mut output = io::stdout().lock();
    let is_valid = say(&mut output, answer)?;
    output.flush()?;
    Ok(is_valid)
}

// ---- streams

mod streams {
    use std::os::raw::c_int;
    use std::sync::atomic::{AtomicBool, Ordering};

    static ARE_OPEN: AtomicBool = AtomicBool::new(false);

    /// Whether standard input and output were open when the program was started.
    pub(crate) fn are_open() -> bool {
        ARE_OPEN.load(Ordering::Relaxed)
    }

    extern "C" {
        fn fcntl(file: c_int, command: c_int, ...) -> c_int;
    }

    const F_GETFD: c_int = 1;

    extern "C" fn look() {
        // SAFETY: fcntl takes any number, and with F_GETFD it changes nothing.
        let is_open = |file| unsafe { fcntl(file, F_GETFD) } >= 0;
        ARE_OPEN.store(is_open(0) && is_open(1), Ordering::Relaxed);
    }

    /// Rust opens /dev/null in place of what is closed before it calls `main`, so that this is
    /// looked at before that.
    #[used]
    #[link_section = ".init_array"]
    static LOOK: extern "C" fn() = look;
}

/// What the words ask for; none where they ask for nothing that there is.
fn answer(words: &[OsString]) -> Option<Result<bool, Untold>> {
    let (command, words) = words.split_first()?;
    Some(match (command.to_str()?, words) {
        _ if !streams::are_open() => Err("standard input or output is closed".into()),
        ("certificates", [authorities, principal, second @ ..]) if second.len() < 2 => {
            second_of(second.first()).and_then(|it| certificates(authorities, principal, it))
        }
        ("signature", [signers, namespace, file]) => signature(signers, namespace, file),
        _ => return None,
    })
}

fn main() -> ExitCode {
    let words: Vec<OsString> = env::args_os().skip(1).collect();
    let told = match answer(&words) {
        Some(Ok(true)) => return ExitCode::SUCCESS,
        Some(Ok(false)) => return ExitCode::from(1),
        Some(Err(fault)) => writeln!(io::stderr(), "check: {fault}"),
        None => write!(io::stderr(), "{USAGE}"),
    };
    // the status says it, too
    drop(told);
    ExitCode::from(2)
}
