//! What the questions of checks/bindings can't ask.

use rafendilo::{
    Authorities, Draft, Grant, HostLogin, HostPort, Listed, Offer, Permits, Place, Principals,
    Question, Refused, Sha256, Signed, Source, Status, Text, Trusted,
};

/// Strings, one after the other (RFC 4251, section 5).
fn strings(parts: &[&[u8]]) -> Vec<u8> {
    parts.iter().flat_map(|it| rafendilo::string(it).unwrap()).collect()
}

/// The blob of an Ed25519 key with these bytes.
fn ed25519(bytes: &[u8; 32]) -> Vec<u8> {
    strings(&[b"ssh-ed25519", bytes])
}

#[test]
fn a_draft_is_refused_where_something_is_left_out() {
    let key = ed25519(b"the thirty-two bytes of some key");
    let refusal = |draft| rafendilo::certificate_to_be_signed(&draft).err();
    let draft = Draft { key: &key, authority: &key, nonce: &[0; 16], ..Draft::default() };
    assert_eq!(refusal(draft), Some(Status::EMPTY_WINDOW));
    let draft = Draft { valid_before: 1, ..draft };
    assert_eq!(refusal(draft), Some(Status::PRINCIPALS));
    let draft = Draft { principals: Listed::Everybody, ..draft };
    assert_eq!(refusal(draft), None);
    assert_eq!(refusal(Draft { nonce: &[], ..draft }), Some(Status::LENGTH));
}

#[test]
fn values_go_from_thread_to_thread() {
    fn shared<T: Send + Sync + 'static>() {}
    shared::<Question>();
    shared::<rafendilo::CertificateContents<'static>>();
    shared::<rafendilo::LineOption>();
    shared::<Draft<'static>>();
    shared::<HostLogin<'static>>();
    shared::<Offer<'static>>();
    shared::<Signed<'static>>();
    shared::<Trusted<'static>>();
    shared::<Place<'static>>();
    shared::<Grant>();
    shared::<Refused>();
    shared::<Status>();
}

#[test]
fn no_file_is_not_no_revocation() {
    let key = ed25519(b"the thirty-two bytes of some key");
    assert_eq!(rafendilo::check_unrevoked_key(rafendilo::NO_REVOCATIONS, &key), Ok(()));
    assert_eq!(rafendilo::check_unrevoked_key(&[], &key), Err(Status::UNREADABLE_REVOCATIONS));
    let login = HostLogin {
        known_hosts: &[
            b"h ssh-ed25519 AAAAC3NzaC1lZDI1NTE5AAAAIHRoZSB0aGlydHktdHdvIGJ5dGVzIG9mIHNvbWUga2V5",
        ],
        host: b"h",
        port: 22,
        revoked: rafendilo::NO_REVOCATIONS,
        unix_timestamp: 0,
        least_rsa_bits: 0,
    };
    assert_eq!(rafendilo::check_host_key(&login, &key), Ok(()));
    let login = HostLogin { revoked: &[], ..login };
    assert_eq!(rafendilo::check_host_key(&login, &key), Err(Status::UNREADABLE_REVOCATIONS));
}

#[test]
fn a_later_kind_of_key_is_passed_over() {
    let line = "ssh-ed25519 AAAAC3NzaC1lZDI1NTE5AAAAIHRoZSB0aGlydHktdHdvIGJ5dGVzIG9mIHNvbWUga2V5";
    // the string "ssh-later", and four bytes
    let later = "ssh-later AAAACXNzaC1sYXRlcgAAAAA=";
    let key = rafendilo::fingerprint(&ed25519(b"the thirty-two bytes of some key")).unwrap();
    let found = |lines: &[&str]| rafendilo::authorities(lines.join("\n").as_bytes());
    let both = Authorities { keys: vec![key, key], later_lines: vec![4] };
    assert_eq!(found(&["# keys", line, "", later, line]), Ok(both));
    // the string "ssh-other" stands in the third line
    let refused = found(&[later, "", "ssh-later AAAACXNzaC1vdGhlcgAAAAA=", line]).unwrap_err();
    assert_eq!((refused.line, refused.status), (3, Status::LABEL));
    assert_eq!(found(&[]), Ok(Authorities::default()));
}

#[test]
fn permits_are_sets() {
    let both = Permits::PTY | Permits::NO_TOUCH;
    assert!(both.contains(Permits::PTY) && both.contains(both));
    assert!(!Permits::PTY.contains(both) && !Permits::default().contains(Permits::PTY));
    assert_eq!(both.bits(), 65);
}

/// What a server trusts that has these texts of authorized_keys.
fn trusted<'a>(authorized_keys: &'a [Text<'a>]) -> Trusted<'a> {
    Trusted {
        authorized_keys,
        authorities: &[],
        principals: Principals::InCertificate,
        command_keys: &[],
        revoked: rafendilo::NO_REVOCATIONS,
        least_rsa_bits: 0,
        requires_touch: false,
        requires_verification: false,
    }
}

const HERE: Place<'static> = Place { client: None, host: None, unix_timestamp: 0 };
const LINE: &str =
    "ssh-ed25519 AAAAC3NzaC1lZDI1NTE5AAAAIHRoZSB0aGlydHktdHdvIGJ5dGVzIG9mIHNvbWUga2V5";

#[test]
fn a_login_asks_what_the_client_has_signed() {
    let key = ed25519(b"the thirty-two bytes of some key");
    let offer = Offer { user: b"alice", algorithm: Some(b"ssh-ed25519"), blob: &key };
    let signature = strings(&[b"ssh-ed25519", &[7; 64]]);
    let (session_id, host_key) = ([1; 32], ed25519(b"the thirty-two bytes of its host"));
    let text = format!("# a comment\nno-pty {LINE}\n");
    let texts = [Text::Read(b""), Text::Read(text.as_bytes())];
    // RFC 4252, section 7, and OpenSSH's PROTOCOL
    let front = [strings(&[&session_id]), vec![50], strings(&[b"alice", b"ssh-connection"])];
    let rest = [vec![1], strings(&[b"ssh-ed25519", &key])];
    let bound = b"publickey-hostbound-v00@openssh.com";
    for (host_key, method, end) in [
        (None, strings(&[b"publickey"]), Vec::new()),
        (Some(&host_key[..]), strings(&[bound]), strings(&[&host_key])),
    ] {
        let message = [front.concat(), method, rest.concat(), end].concat();
        let signed = Signed::Request { session_id: &session_id, host_key, signature: &signature };
        let log_in = |yes| {
            let mut asked = 0;
            let said = rafendilo::log_in(&offer, &signed, &trusted(&texts), &HERE, |question| {
                assert_eq!((question.key(), question.message()), (&key[..], &message[..]));
                assert_eq!(question.signature(), [7; 64]);
                asked += 1;
                yes
            });
            assert_eq!(asked, 1);
            said
        };
        let grant = log_in(true).unwrap();
        assert_eq!((grant.source, grant.text, grant.line), (Source::AuthorizedKeys, 1, 2));
        assert_eq!(grant.key, rafendilo::fingerprint(&key).unwrap());
        assert_eq!(grant.authority, Sha256::default());
        assert!(!grant.permits.contains(Permits::PTY));
        assert_eq!(log_in(false), Err(Refused::from(Status::CLIENT_NOT_SIGNED)));
    }
}

#[test]
fn a_text_that_could_not_be_read_is_not_an_empty_one() {
    let key = ed25519(b"the thirty-two bytes of some key");
    let offer = Offer { user: b"alice", algorithm: None, blob: &key };
    let signed = Signed::ByTransport { flags: None };
    let never = |_: &Question| -> bool { panic!("nothing is to be verified") };
    let line = Text::Read(LINE.as_bytes());
    let log_in = |texts: &[Text]| rafendilo::log_in(&offer, &signed, &trusted(texts), &HERE, never);
    assert_eq!(log_in(&[line]).unwrap().line, 1);
    assert_eq!(log_in(&[line, Text::Unreadable]).unwrap().text, 0);
    let refused = log_in(&[Text::Read(b""), Text::Unreadable, line]).unwrap_err();
    let source = Some(Source::AuthorizedKeys);
    assert_eq!(refused, Refused { status: Status::TEXT_UNREADABLE, source, text: 1, line: 0 });
    let untrusted = log_in(&[]);
    assert_eq!(untrusted, Err(Refused::from(Status::USER_NOT_LISTED)));
    let query = |texts: &[Text]| rafendilo::may_offer(&offer, &trusted(texts), &HERE, never);
    assert_eq!((query(&[line]), query(&[])), (Ok(()), Err(Status::USER_NOT_LISTED)));
}

#[test]
fn a_line_that_cannot_be_told_is_named() {
    let key = ed25519(b"the thirty-two bytes of some key");
    let offer = Offer { user: b"alice", algorithm: None, blob: &key };
    let text = format!("\nfrom=\"*,\" {LINE}\n");
    let texts = [Text::Read(b"# x\n"), Text::Read(text.as_bytes())];
    let never = |_: &Question| -> bool { panic!("nothing is to be verified") };
    let said = rafendilo::log_in(&offer, &Signed::BySshd, &trusted(&texts), &HERE, never);
    let source = Some(Source::AuthorizedKeys);
    let wanted = Refused { status: Status::LINE_UNCLEAR, source, text: 1, line: 2 };
    assert_eq!(said, Err(wanted));
    assert!(wanted.to_string().ends_with("(96) in line 2 of authorized_keys[1]"));
    let unread = Refused { status: Status::TEXT_UNREADABLE, line: 0, ..wanted };
    assert!(unread.to_string().ends_with("(98) in authorized_keys[1]"));
    assert_eq!(Refused::from(Status::REVOKED).to_string(), Status::REVOKED.to_string());
}

#[test]
fn a_grant_says_where_ports_may_be_forwarded_and_what_runs() {
    let forced = Grant {
        shown_command: Some(String::new()),
        key_id: String::new(),
        permit_open: vec![HostPort { host: "db".into(), port: Some(5432) }],
        permit_listen: vec![HostPort { host: "*".into(), port: None }],
        environment: Vec::new(),
        line: 1,
        text: 0,
        serial: 0,
        expires: None,
        authority: Sha256::default(),
        key: Sha256::default(),
        permits: Permits::PORT_FORWARDING,
        tunnel: None,
        source: Source::AuthorizedKeys,
    };
    assert!(forced.may_open("db", 5432));
    assert!(!forced.may_open("DB", 5432));
    assert!(!forced.may_open("db", 5433));
    assert!(forced.may_listen("", 0));
    assert!(!forced.may_listen("h", 65536));
    assert_eq!((forced.runs(Some("ls")), forced.runs(None)), (Some("".into()), Some("".into())));
    let free = Grant { permits: Permits::ANY_COMMAND, shown_command: None, ..forced };
    assert_eq!((free.runs(Some("ls")), free.runs(None)), (Some("ls".into()), None));
    assert!(!Grant { permit_open: Vec::new(), ..free }.may_open("db", 5432));
}
