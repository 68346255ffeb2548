//! Answers questions about the calls of the Rust package in bindings/rust: a line of the input a
//! line of the answer, as checks/asked/answers.py says.

use std::io::{self, BufRead};
use std::net::IpAddr;

use rafendilo::{
    is_signature, CertificateType, Draft, HashAlgorithm, HeldHosts, HostLogin, KnownBy, Listed,
    Principal, Question, Sha256, Signers, Status,
};

mod logins;

type Answer = Result<String, Status>;

// ---- words

fn data(word: &str) -> Vec<u8> {
    let digits = if word == "-" { "" } else { word };
    let pairs = (0..digits.len()).step_by(2).map(|at| &digits[at..at + 2]);
    pairs.map(|it| u8::from_str_radix(it, 16).expect("a word of hexadecimal digits")).collect()
}

/// The byte strings of a word, between commas.
fn several(word: &str) -> Vec<Vec<u8>> {
    let items = if word == "none" { None } else { Some(word.split(',')) };
    items.into_iter().flatten().map(data).collect()
}

/// The same, lent.
fn lent(items: &[Vec<u8>]) -> Vec<&[u8]> {
    items.iter().map(Vec::as_slice).collect()
}

fn word(data: impl AsRef<[u8]>) -> String {
    let data = data.as_ref();
    if data.is_empty() {
        return "-".into();
    }
    data.iter().map(|it| format!("{it:02x}")).collect()
}

fn number(word: &str) -> u64 {
    word.parse().expect("a number")
}

fn digests(word: &str) -> Vec<Sha256> {
    let digest = |it: &[u8]| Sha256 { bytes: it.try_into().expect("32 bytes") };
    data(word).chunks(32).map(digest).collect()
}

/// The words after 0.
fn words<I: IntoIterator<Item = String>>(found: I) -> Answer {
    Ok(std::iter::once("0".into()).chain(found).collect::<Vec<_>>().join(" "))
}

/// The one word of what is made.
fn one(made: Result<Vec<u8>, Status>) -> Answer {
    words([word(made?)])
}

fn number_of(answer: Result<(), Status>) -> String {
    answer.map_or_else(Status::number, |()| 0).to_string()
}

// ---- questions

fn asked(question: &Question, signer: Option<Sha256>) -> Answer {
    let parts = [question.key(), question.message(), question.signature()].map(word);
    let number = (question.algorithm() as u32).to_string();
    words([number].into_iter().chain(parts).chain(signer.map(|it| word(it.bytes))))
}

fn signed(found: Result<(Question, Sha256), Status>) -> Answer {
    let (question, signer) = found?;
    asked(&question, Some(signer))
}

fn sshsig_hash(signature: &[u8]) -> Answer {
    let name = match rafendilo::sshsig_hash(signature)? {
        HashAlgorithm::Sha256 => "sha256",
        HashAlgorithm::Sha512 => "sha512",
    };
    words([String::from(name)])
}

fn is_sshsig(what: &str, given: &[&str]) -> Answer {
    let (signature, space, covered) = (data(given[0]), data(given[1]), data(given[2]));
    let by = digests(given[3]);
    Ok(number_of(if what == "is-sshsig" {
        rafendilo::check_sshsig(&signature, space, &covered, &by, is_signature)
    } else {
        rafendilo::check_sshsig_of_digest(&signature, space, &covered, &by, is_signature)
    }))
}

fn verified(question: &Question) -> Answer {
    words([u8::from(is_signature(question)).to_string()])
}

fn validate(given: &[&str]) -> Answer {
    let name = if given[2] == "*" { None } else { Some(data(given[2])) };
    let principal = name.as_deref().map_or(Principal::Any, Principal::Named);
    let (blob, second, yes) = (data(given[0]), number(given[1]), given[4] == "1");
    let mut questions = 0;
    let verify = |_: &Question| {
        questions += 1;
        yes
    };
    let answer = rafendilo::check_certificate(&blob, second, principal, &digests(given[3]), verify);
    Ok(format!("{} {questions}", number_of(answer)))
}

// ---- who is let in

fn address(bytes: &[u8]) -> Option<IpAddr> {
    let of_six = || <[u8; 16]>::try_from(bytes).map(IpAddr::from).ok();
    <[u8; 4]>::try_from(bytes).map(IpAddr::from).ok().or_else(of_six)
}

fn host_verdict(what: &str, given: &[&str]) -> String {
    let (texts, host, shown) = (several(given[0]), data(given[1]), data(given[2]));
    let revoked = several(given[3]);
    let login = HostLogin {
        known_hosts: &lent(&texts),
        host: &host,
        port: given[4].parse().expect("a port"),
        revoked: &lent(&revoked),
        unix_timestamp: given.get(6).map_or(0, |it| number(it)),
        least_rsa_bits: number(given[5]).try_into().expect("a number of bits"),
    };
    let held = HeldHosts::new(login.known_hosts);
    let alone = HostLogin { known_hosts: &[], ..login };
    if what == "host-key" {
        let said = rafendilo::check_host_key(&login, &shown);
        assert_eq!(said, held.check_host_key(&alone, &shown), "by those that are held");
        return number_of(said);
    }
    let said = rafendilo::check_host_certificate(&login, &shown, is_signature);
    let again = held.check_host_certificate(&alone, &shown, is_signature);
    assert_eq!(said, again, "by those that are held");
    match said {
        Ok(KnownBy::Authority) => "0 1".into(),
        Ok(KnownBy::CertifiedKey) => "0 2".into(),
        Err(status) => status.number().to_string(),
    }
}

fn unreadable_line(given: &[&str]) -> Answer {
    let port = given[2].parse().expect("a port");
    let found = rafendilo::unreadable_host_line(&data(given[0]), data(given[1]), port)?;
    found.map_or(Err(Status::END), |line| words([line.to_string()]))
}

fn other_key_line(line: &[u8]) -> Answer {
    let is_other = rafendilo::is_later_key_line(line)?;
    Ok(number_of(if is_other { Ok(()) } else { Err(Status::LABEL) }))
}

fn later_kind(bytes: &[u8]) -> String {
    number_of(if rafendilo::names_later_kind(bytes) { Ok(()) } else { Err(Status::LABEL) })
}

fn authority(found: Result<rafendilo::Authorities, rafendilo::NoKey>) -> Answer {
    let found = found.map_err(|it| it.status)?;
    match (found.keys.first(), found.later_lines.first()) {
        (Some(key), _) => words([word(&key.bytes)]),
        (None, Some(_)) => Err(Status::LATER_KEY),
        (None, None) => Err(Status::END),
    }
}

fn may_be(found: Result<bool, Status>) -> Answer {
    Ok(number_of(if found? { Ok(()) } else { Err(Status::END) }))
}

fn may_verify(key: &[u8]) -> Answer {
    let yes = rafendilo::may_verify(key)?;
    Ok(number_of(if yes { Ok(()) } else { Err(Status::KEY_NOT_ACCEPTED) }))
}

fn safe_mode(given: &[&str]) -> String {
    let number = |at: usize| given[at].parse().expect("a number");
    let yes = rafendilo::is_safe_mode(number(0), number(1), number(2) as u32);
    number_of(if yes { Ok(()) } else { Err(Status::UNSAFE_MODE) })
}

// ---- certificates

fn fields(blob: &[u8]) -> Answer {
    let found = rafendilo::certificate_fields(blob)?;
    let numbers = [
        found.serial,
        found.valid_after,
        found.valid_before,
        found.certificate_type as u64,
        found.lists_principals.into(),
        found.has_critical_options.into(),
    ];
    words(numbers.map(|it| it.to_string()))
}

fn pairs(front: &str, options: rafendilo::CertificateOptions<'_>) -> Result<Vec<String>, Status> {
    let by_name = options.by_name()?;
    Ok(by_name
        .iter()
        .map(|(name, value)| format!("{front}{}={}", word(name), word(value)))
        .collect())
}

fn lists(blob: &[u8]) -> Answer {
    let found = rafendilo::certificate_contents(blob)?;
    let key = rafendilo::certificate_key(blob)?;
    let mut listed = vec![word(found.key_id), word(key), word(found.authority)];
    for name in found.principals {
        listed.push(format!("principal={}", word(name?)));
    }
    listed.extend(pairs("critical=", found.critical_options)?);
    listed.extend(pairs("extension=", found.extensions)?);
    words(listed)
}

fn text(bytes: &[u8]) -> Result<&str, Status> {
    std::str::from_utf8(bytes).map_err(|_| Status::CHARACTER_ENCODING)
}

/// What is to be signed of the draft whose lists stand in the words as a certificate has them, or
/// the certificate, where a signature follows.
fn made(given: &[&str]) -> Answer {
    let spans: Vec<Vec<u8>> = given[..7].iter().map(|it| data(it)).collect();
    let numbers: Vec<u64> = given[7..12].iter().map(|it| number(it)).collect();
    let names: Result<Vec<_>, _> = rafendilo::strings(&spans[3]).map(|it| text(it?)).collect();
    let names = names?;
    let options = |span| -> Result<Vec<(&str, &str)>, Status> {
        Ok(rafendilo::certificate_options(span).by_name()?.into_iter().collect())
    };
    let (critical_options, extensions) = (options(&spans[4])?, options(&spans[5])?);
    let draft = Draft {
        key: &spans[0],
        nonce: &spans[1],
        key_id: text(&spans[2])?,
        principals: if numbers[4] == 1 { Listed::Everybody } else { Listed::Names(&names) },
        critical_options: &critical_options,
        extensions: &extensions,
        authority: &spans[6],
        serial: numbers[0],
        valid_after: numbers[1],
        valid_before: numbers[2],
        certificate_type: CertificateType::try_from(numbers[3] as u32)?,
    };
    one(match given.get(12) {
        None => rafendilo::certificate_to_be_signed(&draft),
        Some(signature) => rafendilo::make_certificate(&draft, |_| Ok(data(signature))),
    })
}

// ---- keys and lines

fn key(blob: &[u8]) -> Answer {
    let (short, long) = (rafendilo::fingerprint(blob)?, rafendilo::fingerprint_sha512(blob)?);
    words([word(short.bytes), short.to_string(), word(long.bytes), long.to_string()])
}

fn line(bytes: &[u8]) -> Answer {
    let found = rafendilo::read_line(bytes)?;
    words([u8::from(found.is_certificate).to_string(), word(found.blob), word(found.comment)])
}

fn normal(kind: &str, blob: &[u8]) -> Answer {
    one(match kind {
        "key" => rafendilo::normal_key(blob),
        "certificate" => rafendilo::normal_certificate(blob),
        "sshsig" => rafendilo::normal_sshsig(blob),
        _ => rafendilo::normal_signature(blob),
    })
}

fn strings(bytes: &[u8]) -> Answer {
    let found: Result<Vec<_>, _> = rafendilo::strings(bytes).map(|it| it.map(word)).collect();
    words(found?)
}

// ---- entries

fn entry(line: &[u8]) -> Answer {
    let found = rafendilo::authorized_entry(line)?;
    words(["0".into(), word(found.options), word(found.key), word(found.comment)])
}

fn host(line: &[u8]) -> Answer {
    let found = rafendilo::known_host(line)?;
    let marker = (found.marker as u32).to_string();
    words([marker, word(found.hosts), word(found.key), word(found.comment)])
}

fn options(bytes: &[u8]) -> Answer {
    let shown = |it: rafendilo::LineOption| match it.value {
        None => word(it.name),
        Some(value) => format!("{}={}", word(it.name), word(value)),
    };
    words(rafendilo::line_options(bytes)?.into_iter().map(shown))
}

fn addresses(given: &[&str]) -> String {
    let (list, host) = (data(given[0]), data(given[2]));
    let address = address(&data(given[1])).expect("an address");
    let by_certificate = number_of(rafendilo::check_source_address(&list, address));
    format!("{by_certificate} {}", number_of(rafendilo::check_from(&list, &host, address)))
}

fn host_and_port(text: &[u8]) -> Answer {
    let (host, port) = rafendilo::host_and_port(text)?;
    words([word(host.as_bytes()), port.unwrap_or(0).to_string()])
}

fn random_art(digest: &[u8], header: &[u8]) -> Answer {
    let digest = Sha256 { bytes: digest.try_into().expect("a digest") };
    let header = std::str::from_utf8(header).map_err(|_| Status::TEXT)?;
    words([word(digest.random_art(header)?)])
}

fn time(text: &[u8]) -> Answer {
    let (first, last) = rafendilo::read_time(text)?.into_inner();
    words([first.to_string(), last.to_string()])
}

/// What a text of allowed signers says of a signature, where a verification says no or yes, or of
/// one of a message with a digest.
fn signer(what: &str, given: &[&str]) -> String {
    let [text, identity, namespace, signature] = [0, 1, 2, 3].map(|at| data(given[at]));
    let revoked = several(given[4]);
    let by = Signers {
        text: &text,
        identity: &identity,
        unix_timestamp: number(given[5]),
        revoked: &lent(&revoked),
    };
    if what == "signer" {
        return number_of(rafendilo::check_signer_with_answer(
            &signature,
            namespace,
            &by,
            given[6] == "1",
        ));
    }
    let digest = data(given[6]);
    number_of(rafendilo::check_signer_of_digest(&signature, namespace, &digest, &by, is_signature))
}

fn unrevoked(answer: Result<(), Status>) -> Answer {
    answer?;
    words([])
}

fn answer(question: &str) -> Answer {
    let parts: Vec<&str> = question.split(' ').collect();
    let (what, given) = (parts[0], &parts[1..]);
    let at = |number: usize| data(given[number]);
    match what {
        "certificate" => asked(&rafendilo::certificate_question(&at(0))?, None),
        "signature" => asked(&rafendilo::signature_question(&at(0), &at(1), &at(2))?, None),
        "sshsig" => signed(rafendilo::sshsig_question(&at(0), at(1), &at(2))),
        "sshsig-of-digest" => signed(rafendilo::sshsig_question_of_digest(&at(0), at(1), &at(2))),
        "sshsig-hash" => sshsig_hash(&at(0)),
        "sshsig-reserved" => one(rafendilo::sshsig_reserved(&at(0))),
        "is-sshsig" | "is-sshsig-of-digest" => is_sshsig(what, given),
        "is-signature" => verified(&rafendilo::signature_question(&at(0), &at(1), &at(2))?),
        "validate" => validate(given),
        "log-in" => Ok(logins::log_in(given)),
        "log-in-questions" => Ok(logins::log_in_questions(given)),
        "may-offer" => Ok(logins::may_offer(given)),
        "forwards" => logins::forwards(given),
        "runs" => logins::runs(given),
        "host-key" | "host-certificate" => Ok(host_verdict(what, given)),
        "unreadable-line" => unreadable_line(given),
        "other-key-line" => other_key_line(&at(0)),
        "later-kind" => Ok(later_kind(&at(0))),
        "line-authority" => authority(rafendilo::authorities(&at(0))),
        "user-authority" => authority(rafendilo::user_authorities(&at(0), &at(1))),
        "for-key" => may_be(rafendilo::line_may_name_key(&at(0), &at(1))),
        "for-certificate" => may_be(rafendilo::line_may_name_authority(&at(0), &at(1))),
        "may-verify" => may_verify(&at(0)),
        "safe-mode" => Ok(safe_mode(given)),
        "fields" => fields(&at(0)),
        "lists" => lists(&at(0)),
        "certificate-options" => words(pairs("", rafendilo::certificate_options(&at(0)))?),
        "strings" => strings(&at(0)),
        "lines" => words(rafendilo::entry_lines(&at(0)).map(word)),
        "key" => key(&at(0)),
        "line" => line(&at(0)),
        "normal" => normal(given[0], &at(1)),
        "draft" | "make" => made(given),
        "join" => one(rafendilo::join_certificate(&at(0), &at(1))),
        "entry" => entry(&at(0)),
        "host" => host(&at(0)),
        "options" => options(&at(0)),
        "addresses" => Ok(addresses(given)),
        "armour" => one(rafendilo::read_armour(at(0))),
        "random-art" => random_art(&at(0), &at(1)),
        "host-and-port" => host_and_port(&at(0)),
        "time" => time(&at(0)),
        "signer" | "is-signer" => Ok(signer(what, given)),
        "unrevoked-key" => {
            unrevoked(rafendilo::check_unrevoked_key(&lent(&several(given[0])), &at(1)))
        }
        "unrevoked-certificate" => {
            unrevoked(rafendilo::check_unrevoked_certificate(&lent(&several(given[0])), &at(1)))
        }
        "unrevoked-key-by-krl" => unrevoked(rafendilo::check_unrevoked_key_by_krl(&at(0), &at(1))),
        "unrevoked-certificate-by-krl" => {
            unrevoked(rafendilo::check_unrevoked_certificate_by_krl(&at(0), &at(1)))
        }
        _ => panic!("no question: {question}"),
    }
}

fn main() {
    for line in io::stdin().lock().lines() {
        let line = line.expect("a line");
        println!("{}", answer(&line).unwrap_or_else(|status| status.number().to_string()));
    }
}
