//! Answers questions about logins by public key.

use rafendilo::{
    is_signature, Grant, HostPort, Offer, Permits, Place, Principals, Question, Refused, Signed,
    Status, Text, Trusted,
};

use crate::{address, data, digests, lent, number, number_of, several, word, words, Answer};

/// The texts of a word: `?` is one that could not be read.
fn texts<'a>(word: &str, lent: &'a [Vec<u8>]) -> Vec<Text<'a>> {
    let text = |(it, text): (&str, &'a Vec<u8>)| match it {
        "?" => Text::Unreadable,
        _ => Text::Read(text),
    };
    word.split(',').zip(lent).map(text).collect()
}

/// What is said of an offer, whom the server trusts and where the client is, by these words.
fn with_login<T>(
    [offered, rest]: [&[&str]; 2],
    say: impl FnOnce(&Offer<'_>, &Trusted<'_>, &Place<'_>) -> T,
) -> T {
    let [user, algorithm, blob] = [0, 1, 2].map(|at| data(offered[at]));
    let offer = Offer {
        user: &user,
        algorithm: Some(&algorithm[..]).filter(|it| !it.is_empty()),
        blob: &blob,
    };
    let [keys, principals, command] = [0, 2, 3].map(|at| several(&rest[at].replace('?', "")));
    let (authorities, revoked) = (digests(rest[1]), several(rest[4]));
    let principals = texts(rest[2], &principals);
    let trusted = Trusted {
        authorized_keys: &texts(rest[0], &keys),
        authorities: &authorities,
        principals: match rest[5] {
            "1" => Principals::InCertificate,
            _ => Principals::Files(&principals),
        },
        command_keys: &texts(rest[3], &command),
        revoked: &lent(&revoked),
        least_rsa_bits: number(rest[6]).try_into().expect("a number of bits"),
        requires_touch: rest[7] == "1",
        requires_verification: rest[8] == "1",
    };
    let host = data(rest[10]);
    let place = Place {
        client: address(&data(rest[9])),
        host: Some(&host[..]).filter(|it| !it.is_empty()),
        unix_timestamp: number(rest[11]),
    };
    say(&offer, &trusted, &place)
}

/// What is said of a login by the words of `log-in`.
fn logged_in(given: &[&str], verify: impl FnMut(&Question) -> bool) -> Result<Grant, Refused> {
    let [session_id, host_key, signature] = [3, 4, 5].map(|at| data(given[at]));
    let signed = match given[6] {
        "1" => Signed::Request {
            session_id: &session_id,
            host_key: (given[7] == "1").then_some(&host_key[..]),
            signature: &signature,
        },
        "2" => Signed::ByTransport { flags: None },
        "3" => Signed::ByTransport { flags: given[8].parse().ok() },
        _ => Signed::BySshd,
    };
    with_login([&given[..3], &given[9..]], |offer, trusted, place| {
        rafendilo::log_in(offer, &signed, trusted, place, verify)
    })
}

pub(crate) fn log_in(given: &[&str]) -> String {
    let mut asked = 0;
    let said = logged_in(given, |question| {
        asked += 1;
        is_signature(question)
    });
    let said = match said {
        Ok(grant) => granted(&grant, asked),
        Err(it) => {
            let source = it.source.map_or(0, |it| it as usize);
            vec![it.status.number() as usize, asked, source, it.text, it.line]
                .iter()
                .map(ToString::to_string)
                .collect()
        }
    };
    said.join(" ")
}

fn granted(grant: &Grant, asked: usize) -> Vec<String> {
    let command = grant.shown_command.as_deref();
    assert_eq!(command.is_none(), grant.permits.contains(Permits::ANY_COMMAND));
    let (first, last) =
        grant.expires.as_ref().map_or((u64::MAX, u64::MAX), |it| (*it.start(), *it.end()));
    let front = [0, asked, grant.source as usize, grant.text, grant.line].map(|it| it.to_string());
    let texts = [
        word(command.unwrap_or_default()),
        word(&grant.key_id),
        places(&grant.permit_open),
        places(&grant.permit_listen),
        word(grant.environment.iter().flat_map(|it| string(it)).collect::<Vec<u8>>()),
    ];
    let numbers = [grant.serial, first, last].map(|it| it.to_string());
    let digests = [word(grant.authority.bytes), word(grant.key.bytes)];
    let ends = [grant.permits.bits(), grant.tunnel.unwrap_or(0)].map(|it| it.to_string());
    front.into_iter().chain(texts).chain(numbers).chain(digests).chain(ends).collect()
}

/// What is asked of a verifier that says yes.
pub(crate) fn log_in_questions(given: &[&str]) -> String {
    let mut told = Vec::new();
    let said = logged_in(given, |question| {
        told.push((question.algorithm() as u32).to_string());
        told.extend([question.key(), question.message(), question.signature()].map(word));
        true
    });
    let front = number_of(said.map(drop).map_err(Status::from));
    std::iter::once(front).chain(told).collect::<Vec<_>>().join(" ")
}

pub(crate) fn may_offer(given: &[&str]) -> String {
    let mut asked = 0;
    let said = with_login([&given[..3], &given[3..]], |offer, trusted, place| {
        rafendilo::may_offer(offer, trusted, place, |question| {
            asked += 1;
            is_signature(question)
        })
    });
    format!("{} {asked}", number_of(said))
}

/// Whether a grant lets ports be forwarded there.
pub(crate) fn forwards(given: &[&str]) -> Answer {
    let (host, port) = (data(given[0]), given[1].parse().expect("a port"));
    let grant = logged_in(&given[2..], is_signature)?;
    let both = [grant.may_open(&host, port), grant.may_listen(&host, port)];
    words(both.map(|it| u8::from(it).to_string()))
}

/// What runs by a grant.
pub(crate) fn runs(given: &[&str]) -> Answer {
    let asked = String::from_utf8(data(given[0])).expect("a command");
    let grant = logged_in(&given[2..], is_signature)?;
    let command = Some(&asked[..]).filter(|_| given[1] == "1");
    words([word(grant.runs(command).ok_or(Status::END)?)])
}

fn string(content: impl AsRef<[u8]>) -> Vec<u8> {
    rafendilo::string(content).expect("a string")
}

/// The hosts and ports as the library lays them out.
fn places(found: &[HostPort]) -> String {
    let port = |it: &HostPort| it.port.map_or(vec![], |port| port.to_be_bytes().to_vec());
    let both = |it: &HostPort| [string(&it.host), string(port(it))].concat();
    word(found.iter().flat_map(both).collect::<Vec<u8>>())
}
