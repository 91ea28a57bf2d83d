//! Changes of a password, request by request.

ghost use Rattle.std.specs.Prelude.{◌≡◌, ◌≤◌, ◌^◌, length, IfOk};
ghost use Rattle.sspi_generator.specs.Draws.{IsInRange, AreInRange};
ghost use Rattle.krb_password_change.specs.ChangeRuns.{IsNew, turns_left};

mod changes;

use crate::clients::{config, rules_of};
use crate::kdc::Kdc;
use crate::krb_initiator_tests::is_refused;
use crate::script::Script;
use krb_conf::Env;
use krb_context::Kerberos;
use krb_der::{OutOfMemory, Text, boxed};
use krb_password_change::{ChangePassword, GeneratorChangePassword, change_password};
use sspi_core::{Draw, Error, Secret};
use sspi_generator::Generator;
use std::alloc::Global;
use std::test::Fail;

/// The octets 0 to 63, at 1700000000123456.
fn draw() -> Draw
    ensures { IsInRange result }
{
    let mut random = [0; 64];
    let mut octet = 0u8;
    for place in random.iter_mut() {
        *place = octet;
        octet = octet.wrapping_add(1);
    }
    Draw {
        moment: 1_700_000_000_123_456,
        random,
    }
}

/// The inputs of the steps of a change.
fn draws() -> [Draw; 4]
    ensures { AreInRange result }
{
    let draw = draw();
    [draw, draw, draw, draw]
}

/// From `secret` to `newpass`.
fn change_of(alloc: Global, account: &str) -> Result<Box<ChangePassword>, OutOfMemory>
    ensures { IfOk result (λ change. length change.value.new_password ≤ 2 ^ 24) }
{
    let change = ChangePassword {
        account_name: Text::from_str(alloc, account)?,
        domain_name: Text::from_str(alloc, "EXAMPLE.COM")?,
        old_password: Secret::new(Text::from_str(alloc, "secret")?),
        new_password: Secret::new(Text::from_str(alloc, "newpass")?),
    };
    boxed(alloc, change)
}

fn client_of(alloc: Global, url: &str) -> Result<Box<Kerberos>, OutOfMemory> {
    let url = if url == "-" { None } else { Some(url) };
    let config = config(alloc, url, "pc")?;
    boxed(
        alloc,
        Kerberos::new_client_from_config(config, [0, 0, 0, 7]),
    )
}

/// The options of a change.
fn run_of(
    alloc: Global,
    client: &Kerberos,
    change: Box<ChangePassword>,
) -> Result<Box<GeneratorChangePassword>, Error>
    requires { length change.value.new_password ≤ 2 ^ 24 }
    ensures new { IfOk result (λ run. IsNew run.value) }
    ensures turns { IfOk result (λ run. turns_left run.value.phase ≡ 3) }
{
    match change_password(alloc, client, Box::into_inner(change), Env::new(alloc)) {
        Ok(run) => Ok(boxed(alloc, Generator::new(run))?),
        Err(error) => Err(error),
    }
}

/// The end of a run: the number of the context.
fn end_over(run: Box<GeneratorChangePassword>, kdc: &mut Kdc) -> Result<u32, Error>
    requires new { IsNew run.value }
    requires turns { turns_left run.value.phase ≡ 3 }
{
    let mut run = run;
    match run.resolve_with(kdc, &draws()) {
        Ok(change) => Ok(change.seq_number),
        Err(error) => Err(error),
    }
}

/// The end of a change.
fn end_of(
    alloc: Global,
    client: &Kerberos,
    change: Box<ChangePassword>,
    kdc: &mut Kdc,
) -> Result<u32, Error>
    requires { length change.value.new_password ≤ 2 ^ 24 }
{
    match run_of(alloc, client, change) {
        Ok(run) => end_over(run, kdc),
        Err(error) => Err(error),
    }
}

/// Whether the context has the number of a line `number` afterwards, or a line `refused` prints the refusal.
fn ends_so(alloc: Global, end: Result<u32, Error>, script: &mut Script) -> bool {
    match end {
        Ok(number) => number == script.take("number").unwrap_or("").parse().unwrap_or(0),
        Err(error) => is_refused(alloc, &error, script),
    }
}

/// Whether a change asks for what the script says, and ends so.
fn goes_with(
    alloc: Global,
    client: &Kerberos,
    change: Box<ChangePassword>,
    script: &mut Script,
) -> bool
    requires { length change.value.new_password ≤ 2 ^ 24 }
{
    let mut kdc = Kdc::new(alloc, *script);
    let end = end_of(alloc, client, change, &mut kdc);
    *script = kdc.script();
    ends_so(alloc, end, script) && kdc.is_asked_so()
}

/// Whether the change of this account does.
fn goes_for(
    alloc: Global,
    client: &Kerberos,
    account: &str,
    script: &mut Script,
) -> Result<bool, OutOfMemory> {
    let change = change_of(alloc, account)?;
    Ok(goes_with(alloc, client, change, script))
}

/// A change with a new context: a line `change` has the user, and the URL of its KDC or `-`; a line `rules` the bits of its rules.
fn goes_so(alloc: Global, script: &mut Script) -> Result<bool, OutOfMemory> {
    let _note = script.take("note");
    let line = script.take("change").unwrap_or("");
    let (account, url) = line.split_once(' ').unwrap_or((line, "-"));
    let mut client = client_of(alloc, url)?;
    client.rules = rules_of(script.take("rules"));
    goes_for(alloc, &client, account, script)
}

/// The rest of the text if a change goes otherwise: nothing if all go so.
fn left(alloc: Global, text: &'static str) -> Result<&'static str, OutOfMemory> {
    let mut script = Script::new(text);
    for _ in 0..text.len() {
        let rest = script.rest();
        if rest.is_empty() || !goes_so(alloc, &mut script)? {
            return Ok(rest);
        }
    }
    Ok("")
}

#[test]
fn a_password_is_changed_or_not(rt: HostRuntime) -> Result<(), Fail> {
    assert_eq!(rt; left(rt.alloc(), changes::DONE)?, "");
    Ok(())
}

#[test]
fn an_as_rep_that_does_not_answer_ends_a_change(rt: HostRuntime) -> Result<(), Fail> {
    assert_eq!(rt; left(rt.alloc(), changes::BY_RFC)?, "");
    Ok(())
}

#[test]
fn replies_before_the_last_end_a_change(rt: HostRuntime) -> Result<(), Fail> {
    assert_eq!(rt; left(rt.alloc(), changes::ENDED_EARLY)?, "");
    Ok(())
}

#[test]
fn what_is_no_answer_ends_a_change(rt: HostRuntime) -> Result<(), Fail> {
    assert_eq!(rt; left(rt.alloc(), changes::NO_ANSWER)?, "");
    Ok(())
}

#[test]
fn an_answer_that_says_nothing_ends_a_change(rt: HostRuntime) -> Result<(), Fail> {
    assert_eq!(rt; left(rt.alloc(), changes::NOTHING_IN_THE_ANSWER)?, "");
    Ok(())
}
