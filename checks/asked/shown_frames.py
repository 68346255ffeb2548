"""What stands around the listings of docs/LOGIN.md, HOST.md, SIGNED-FILE.md and ISSUING.md, so that each language has one program of the four:
its words are a decision and a folder, in which the files are that a listing is given (shown_cases.py)."""

C = """\
#include <inttypes.h>
#include <stdio.h>
#include <stdlib.h>
#include <string.h>
#include <time.h>
#include "reading.h"
#include "sshsig.h"
#include "verdict.h"
#include "verify.h"
static const char *folder;
static raf_blob kept[16];
static size_t kept_count;
static const char *path_of(const char *name) {{
  static char path[4096];
  snprintf(path, sizeof path, "%s/%s", folder, name);
  return path;
}}
static raf_blob data(const char *name) {{
  if (!raf_read_file(path_of(name), &kept[kept_count])) exit(2);
  return kept[kept_count++];
}}
static raf_span span(const char *name) {{ return raf_blob_span(data(name)); }}
static void let_in(const raf_grant *grant, const uint8_t *buffer) {{
  (void)buffer;
  puts(grant->permits ? "good" : "good, and permits nothing");
}}
static void go_on(void) {{ puts("good"); }}
static void accept_file(void) {{ puts("good"); }}
static void hand_out(const uint8_t *certificate, size_t length) {{
  for (size_t at = 0; at < length; at++) printf("%02x", certificate[at]);
  putchar('\\n');
}}
static raf_blob sign(const uint8_t *message, size_t length) {{
  FILE *file = fopen(path_of("message"), "wb");
  if (!file || fwrite(message, 1, length, file) != length || fclose(file) || system(path_of("sign"))) exit(2);
  raf_blob signature;
  if (!raf_read_file(path_of("signed"), &signature)) exit(2);
  return signature;
}}
static void login(void) {{
  raf_blob authority = data("authority_line");
  const char *authority_line = (const char *)authority.bytes;
  size_t authority_length = authority.length;
  raf_span blob = span("blob"), client = span("client"), authorized_keys = span("authorized_keys");
  raf_span session_id = span("session_id"), algorithm = span("algorithm"), signature = span("signature");
{LOGIN}}}
static void host(void) {{
  raf_span texts[] = {{span("known_hosts"), span("ssh_known_hosts")}}, certificate = span("certificate");
  size_t text_count = 2;
{HOST}}}
static void signed_file(void) {{
  raf_blob armour = data("file.sig"), signers = data("allowed_signers");
  FILE *file = fopen(path_of("file"), "rb");
  if (!file) exit(2);
{SIGNED_FILE}  fclose(file);
}}
static void issuing(void) {{
  raf_span key = span("key"), authority = span("authority"), nonce = span("nonce");
  uint64_t now = (uint64_t)time(NULL);
{ISSUING}}}
int main(int count, char **words) {{
  if (count != 3) return 2;
  folder = words[2];
  if (!strcmp(words[1], "LOGIN")) login();
  if (!strcmp(words[1], "HOST")) host();
  if (!strcmp(words[1], "SIGNED-FILE")) signed_file();
  if (!strcmp(words[1], "ISSUING")) issuing();
  while (kept_count) free(kept[--kept_count].bytes);
  return 0;
}}
"""

GO = """\
package main

import (
	"bytes"
	"crypto/ed25519"
	"fmt"
	"io"
	"net/netip"
	"os"
	"time"

	"rafendilo.example/go/rafendilo"
)

func data(name string) []byte {{
	found, err := os.ReadFile(os.Args[2] + "/" + name)
	if err != nil {{
		panic(err)
	}}
	return found
}}

func letIn(rafendilo.Grant) {{ fmt.Println("good") }}

func goOn() {{ fmt.Println("good") }}

func login() {{
	authorities, _, err := rafendilo.Authorities(string(data("authority_line")))
	if err != nil {{
		panic(err)
	}}
	algorithm, blob, signature := string(data("algorithm")), data("blob"), data("signature")
	authorizedKeys, sessionID, peer := data("authorized_keys"), data("session_id"), netip.MustParseAddr("192.0.2.1")
{LOGIN}}}

func host() {{
	texts, certificate := []string{{string(data("known_hosts")), string(data("ssh_known_hosts"))}}, data("certificate")
{HOST}}}

{SIGNED_FILE}
func signedFile() {{
	if err := checkFile(string(data("file.sig")), bytes.NewReader(data("file")), string(data("allowed_signers"))); err != nil {{
		fmt.Println("refused:", err)
		return
	}}
	fmt.Println("good")
}}

func issuing() {{
	key, authority, signer, now := data("key"), data("authority"), ed25519.NewKeyFromSeed(data("seed")), time.Now()
{ISSUING}	if err != nil {{
		panic(err)
	}}
	fmt.Printf("%x\\n", certificate)
}}

func main() {{
	map[string]func(){{"LOGIN": login, "HOST": host, "SIGNED-FILE": signedFile, "ISSUING": issuing}}[os.Args[1]]()
}}
"""

RUST = """\
use std::net::{{IpAddr, Ipv4Addr}};
use std::process::Command;
use std::time::{{SystemTime, UNIX_EPOCH}};
type Answer<T = ()> = Result<T, Box<dyn std::error::Error>>;
fn path(name: &str) -> String {{
    format!("{{}}/{{name}}", std::env::args().nth(2).unwrap())
}}
fn data(name: &str) -> Vec<u8> {{
    std::fs::read(path(name)).unwrap()
}}
fn let_in(grant: &rafendilo::Grant) {{
    assert!(grant.permits.contains(rafendilo::Permits::ANY_COMMAND | rafendilo::Permits::PTY));
    println!("good");
}}
fn go_on() {{
    println!("good");
}}
fn accept_file() {{
    println!("good");
}}
fn digest_by(command: &str, file: &str) -> Answer<Vec<u8>> {{
    let told = Command::new(command).arg(file).output()?.stdout;
    let digits = told.split(|it| *it == b' ').next().unwrap_or(&[]);
    let byte = |it: &[u8]| Ok(u8::from_str_radix(std::str::from_utf8(it)?, 16)?);
    digits.chunks(2).map(byte).collect()
}}
fn sha256_of(file: &str) -> Answer<Vec<u8>> {{
    digest_by("sha256sum", file)
}}
fn sha512_of(file: &str) -> Answer<Vec<u8>> {{
    digest_by("sha512sum", file)
}}
fn sign(message: &[u8]) -> Answer<Vec<u8>> {{
    std::fs::write(path("message"), message)?;
    assert!(Command::new(path("sign")).status()?.success());
    Ok(data("signed"))
}}
fn login() -> Answer {{
    let (authority_line, authorized_keys, algorithm) = (&data("authority_line"), &data("authorized_keys"), &data("algorithm"));
    let (blob, session_id, signature) = (&data("blob"), &data("session_id"), &data("signature"));
    let peer = IpAddr::V4(Ipv4Addr::new(192, 0, 2, 1));
{LOGIN}    Ok(())
}}
fn host() -> Answer {{
    let (own, machine, certificate) = (data("known_hosts"), data("ssh_known_hosts"), &data("certificate"));
    let texts: &[&[u8]] = &[&own, &machine];
{HOST}    Ok(())
}}
fn signed_file() -> Answer {{
    let (armour, signers, file) = (&data("file.sig"), &data("allowed_signers"), &path("file"));
{SIGNED_FILE}    Ok(())
}}
fn issuing() -> Answer {{
    let (key, authority, nonce) = (&data("key"), &data("authority"), &data("nonce"));
    let now = SystemTime::now().duration_since(UNIX_EPOCH)?.as_secs();
{ISSUING}    println!("{{}}", certificate.iter().map(|it| format!("{{it:02x}}")).collect::<String>());
    Ok(())
}}
fn main() -> Answer {{
    match std::env::args().nth(1).as_deref() {{
        Some("LOGIN") => login(),
        Some("HOST") => host(),
        Some("SIGNED-FILE") => signed_file(),
        _ => issuing(),
    }}
}}
"""
PACKAGE = '[package]\nname = "page"\nversion = "1.0.0"\nedition = "2021"\n\n[dependencies]\n{}\n'

# a program of the three other listings in Rattle: a line has a decision and Base64 words. Its verifier says yes to everything, its signer
# signs nothing, and its time is in November 2023
RATTLE = """\
#![tactic(auto)]
ghost use Rattle.std.specs.Prelude.{true};

mod host;
mod issuing;
mod signed_file;

use authority::{Authority, Limits};
use ssh_key::encoding::Reader;
use ssh_key::public::KeyData;
use ssh_key::{Algorithm, Base64Reader, Error, RawVerifier, Result, Signature, SigningKey};
use std::alloc::{AllocError, Global};
use std::num::NonZeroU64;
use std::process::ExitCode;

const NOW: u64 = 1_700_000_000;

#[derive(Drop)]
struct Yes;

impl RawVerifier for Yes {
    ghost accepts = { λ _ _. true };
    fn verify(&self, _: &Algorithm, _: &KeyData, _: &[u8], _: &[u8]) -> std::result::Result<bool, AllocError> {
        Ok(true)
    }
}

#[derive(Drop)]
struct Signer {
    key: KeyData,
    raw: Yes,
}

impl SigningKey for Signer {
    type Raw = Yes;
    ghost raw_of = { λ s. s.raw };
    ghost public_of = { λ s. s.key };
    ghost refuses = { λ _ _ _. Unit {0} };
    fn raw(&self) -> &Yes {
        &self.raw
    }
    fn public_key(&self) -> &KeyData {
        &self.key
    }
    fn try_sign(&self, alloc: Global, _: &[u8]) -> Result<Signature> {
        Signature::new(Algorithm::Ed25519, vec![in alloc; 7; 64]?)
    }
}

fn bytes(alloc: Global, word: &str) -> Result<Vec<u8>> {
    let mut reader = Base64Reader::new(word)?;
    let mut found = vec![in alloc; 0; reader.remaining_len()]?;
    reader.read(&mut found)?;
    Ok(found)
}

fn key_of(alloc: Global, word: &str) -> Result<KeyData> {
    Ok(ssh_key::public::KeyDataRef::from_bytes(&bytes(alloc, word)?)?.to_key_data(alloc)?)
}

fn names(alloc: Global, name: &str) -> Result<Vec<String>> {
    let mut found = Vec::new(alloc);
    found.push(String::from_str(alloc, name)?)?;
    Ok(found)
}

fn issued(alloc: Global, key: &str, by: &str, nonce: &str) -> Result<String> {
    let Some(serial) = NonZeroU64::new(1) else {
        return Err(Error::Time);
    };
    let limits = Limits::new(names(alloc, "alice")?, names(alloc, "permit-pty")?, 3600);
    let mut authority = Authority::new(alloc, limits, serial);
    let signer = Signer { key: key_of(alloc, by)?, raw: Yes };
    issuing::issue(alloc, &mut authority, key_of(alloc, key)?, NOW, bytes(alloc, nonce)?, &signer)?.to_openssh(alloc)
}

fn answer(alloc: Global, text: &str) -> Result<String> {
    let mut words = text.trim_end().split(' ');
    let what = words.next().unwrap_or("");
    let first = words.next().unwrap_or("");
    let second = words.next().unwrap_or("");
    let third = words.next().unwrap_or("");
    if what == "ISSUING" {
        return issued(alloc, first, second, third);
    }
    let (first, second, third) = (bytes(alloc, first)?, bytes(alloc, second)?, bytes(alloc, third)?);
    let good = if what == "HOST" {
        host::known_by(alloc, &[first.as_slice(), second.as_slice()], &third, NOW, &Yes).is_ok()
    } else {
        signed_file::check_file(alloc, &first, &second, &third, NOW, &Yes).is_ok()
    };
    Ok(String::from_str(alloc, if good { "good" } else { "refused" })?)
}

fn main(rt: HostRuntime) -> ExitCode {
    let Ok(text) = std::io::read_to_string(rt.alloc(), &mut rt.reader()) else {
        return ExitCode::FAILURE;
    };
    let Ok(said) = answer(rt.alloc(), &text) else {
        return ExitCode::FAILURE;
    };
    ExitCode::from(if println!(rt; "{said}").is_ok() { 0 } else { 1 })
}
"""
