//! Tasks that are run over clients.

ghost use Rattle.std.specs.Prelude.{◌≡◌, ◌<◌, ℕ, Err};
ghost use Rattle.sspi_generator.specs.Draws.{IsInRange};
ghost use Rattle.sspi_generator.specs.declared.network.NetFault.{NetFault};

use krb_der::{Octets, OutOfMemory, TryCopy};
use sspi_core::{Cause, Draw, Error, NetworkProtocol};
use sspi_generator::{
    Done, Generator, GeneratorState, MemClient, NetFault, NetworkClient, NetworkRequest, Resumable,
    Task,
};
use std::alloc::Global;
use std::collections::VecDeque;
use std::test::Fail;
use url::Url;

/// Three octets to a KDC.
fn request(alloc: Global) -> Result<NetworkRequest, NetFault> {
    let Ok(url) = Url::parse(alloc, "tcp://kdc.example:88") else {
        return Err(NetFault::OutOfMemory);
    };
    match Octets::from_slice(alloc, b"abc") {
        Ok(payload) => Ok(NetworkRequest {
            protocol: NetworkProtocol::Tcp,
            url,
            payload,
        }),
        Err(OutOfMemory) => Err(NetFault::OutOfMemory),
    }
}

/// Asks as often as its number says. It ends with the first random octet of each draw, a decimal digit each in their order, or with
/// the fault that it was handed.
#[derive(Drop)]
struct Asks {
    alloc: Global,
    left: u32,
    digits: u64,
}

impl Asks {
    fn new(alloc: Global, left: u32) -> Asks
        ensures { result.left ≡ left }
    {
        Asks {
            alloc,
            left,
            digits: 0,
        }
    }

    fn note(&mut self, draw: &Draw)
        ensures { self.new.left ≡ self.old.left }
    {
        let digit = u64::from(draw.random[0]);
        self.digits = self.digits.wrapping_mul(10).wrapping_add(digit);
    }
}

impl Task for Asks {
    ghost use Rattle.std.specs.Prelude.{◌≡◌, ℕ, Err};
    ghost use Rattle.sspi_generator.specs.declared.network.NetFault.TheVariants.{Failed, OutOfMemory};

    type Out = Result<u64, NetFault>;

    ghost turns = { λ task. task.left };

    ghost is_new = { λ task. Unit {0} };

    ghost is_waiting = { λ task. Unit {0} };

    ghost starts = { λ old draw state new. Unit {0} };

    ghost is_want = { λ out. out ≡ Err OutOfMemory };

    ghost is_fault = { λ out. (code : ℕ) × (out ≡ Err (Failed code)) };

    fn start(&mut self, draw: &Draw) -> GeneratorState<NetworkRequest, Result<u64, NetFault>> {
        if self.left == 0 {
            self.note(draw);
            return GeneratorState::Completed(Ok(self.digits));
        }
        match request(self.alloc) {
            Ok(request) => {
                self.note(draw);
                self.left -= 1;
                GeneratorState::Suspended(request)
            }
            Err(_) => GeneratorState::Completed(Err(NetFault::OutOfMemory)),
        }
    }

    fn turns(&self) -> u32 {
        self.left
    }
}

impl Resumable for Asks {
    ghost resumes = { λ old reply draw state new. Unit {0} };

    fn resume(
        &mut self,
        reply: Result<Octets, NetFault>,
        draw: &Draw,
    ) -> GeneratorState<NetworkRequest, Result<u64, NetFault>> {
        match reply {
            Ok(_) => self.start(draw),
            Err(fault) => GeneratorState::Completed(Err(fault)),
        }
    }
}

/// Asks once, and does not wait.
#[derive(Drop)]
struct AsksOnce {
    alloc: Global,
    left: u32,
}

impl Task for AsksOnce {
    ghost use Rattle.std.specs.Prelude.{◌≡◌};

    type Out = Result<u32, Error>;

    ghost turns = { λ task. task.left };

    ghost is_new = { λ task. task.left ≡ 1 };

    ghost is_waiting = { λ task. Unit {0} };

    ghost starts = { λ old draw state new. Unit {0} };

    ghost is_want = { λ out. ⊥ };

    ghost is_fault = { λ out. ⊥ };

    fn start(&mut self, _draw: &Draw) -> GeneratorState<NetworkRequest, Result<u32, Error>> {
        match request(self.alloc) {
            Ok(request) => {
                self.left = 0;
                GeneratorState::Suspended(request)
            }
            Err(_) => GeneratorState::Completed(Ok(0)),
        }
    }

    fn turns(&self) -> u32 {
        self.left
    }
}

/// A client that counts a fault at each call, and fails at none.
#[derive(Drop)]
struct Shaky {
    alloc: Global,
    faults: u64,
}

impl NetworkClient for Shaky {
    ghost faults = { λ client. client.faults };

    ghost sends = { λ old request answer new. Unit {0} };

    fn send(&mut self, _request: &NetworkRequest) -> Result<Octets, NetFault> {
        self.faults = self.faults.saturating_add(1);
        Ok(Octets::new(Vec::new(self.alloc)))
    }
}

fn draw(digit: u8) -> Draw
    ensures { IsInRange result }
{
    let mut random = [0; 64];
    random[0] = digit;
    Draw {
        moment: 1_700_000_000_000_000,
        random,
    }
}

/// The end of a task that asks this often over a client.
fn end_over(task: Asks, client: &mut MemClient) -> Result<u64, NetFault>
    requires { task.left < 3 }
{
    let mut run = Generator::new(task);
    run.resolve_with(client, &[draw(1), draw(2), draw(3)])
}

/// Its end over a client of which only the count of faults is seen.
fn end_over_any(task: Asks, client: &mut dyn NetworkClient) -> Result<u64, NetFault>
    requires { task.left < 3 }
{
    let mut run = Generator::new(task);
    run.resolve_with_client(client, &[draw(1), draw(2), draw(3)])
}

fn answers(alloc: Global, rows: &[Option<u32>]) -> Result<MemClient, Fail> {
    let mut answers = VecDeque::new(alloc);
    for row in rows {
        match *row {
            None => answers.push_back(Ok(Octets::new(Vec::new(alloc))))?,
            Some(code) => answers.push_back(Err(NetFault::Failed(code)))?,
        }
    }
    Ok(MemClient::new(answers))
}

/// How often is asked, what the client answers (a fault, or none), what the task ends with, and the faults that were counted.
type Run = (u32, &'static [Option<u32>], Result<u64, NetFault>, u64);

static RUNS: [Run; 5] = [
    (0, &[], Ok(1), 0),
    (2, &[None, None, Some(7)], Ok(123), 0),
    (2, &[None, Some(5)], Err(NetFault::Failed(5)), 1),
    (1, &[Some(u32::MAX)], Err(NetFault::Failed(u32::MAX)), 1),
    (2, &[None], Err(NetFault::Failed(0)), 1),
];

fn runs() -> &'static [Run] {
    &RUNS
}

#[test]
fn the_kth_step_has_the_kth_draw(rt: HostRuntime) -> Result<(), Fail> {
    let alloc = rt.alloc();
    for (left, rows, end, faults) in runs() {
        assert!(rt; *left < 3);
        let mut client = answers(alloc, rows)?;
        assert!(rt; end_over(Asks::new(alloc, *left), &mut client) == *end);
        assert_eq!(rt; client.faults(), *faults);
        let mut client = answers(alloc, rows)?;
        assert!(rt; end_over_any(Asks::new(alloc, *left), &mut client) == *end);
        assert_eq!(rt; client.faults(), *faults);
    }
    Ok(())
}

#[test]
fn a_count_that_rises_is_no_failure(rt: HostRuntime) {
    let alloc = rt.alloc();
    let mut client = Shaky { alloc, faults: 0 };
    assert!(rt; end_over_any(Asks::new(alloc, 2), &mut client) == Ok(123));
    assert_eq!(rt; client.faults, 2);
}

#[test]
fn a_result_completes_at_its_start(rt: HostRuntime) {
    let mut seven: Generator<Done<Result<u32, Error>>> = Generator::from(Ok(7));
    match seven.start(&draw(1)) {
        GeneratorState::Completed(answer) => assert!(rt; answer == Ok(7)),
        GeneratorState::Suspended(_) => panic!(rt; "it asks"),
    }
    let mut seven: Generator<Done<Result<u32, Error>>> = Generator::from(Ok(7));
    assert!(rt; seven.resolve_to_result(&draw(1)) == Ok(7));
    let seven: Generator<Done<Result<u32, Error>>> = Generator::from(Ok(7));
    assert_eq!(rt; seven.unwrap(), 7);
    let seven: Generator<Done<Result<u32, Error>>> = Generator::from(Ok(7));
    assert_eq!(rt; seven.expect("it is over"), 7);
}

#[test]
fn who_sends_nothing_is_told_so(rt: HostRuntime) {
    let mut once = Generator::new(AsksOnce {
        alloc: rt.alloc(),
        left: 1,
    });
    let refused = once.resolve_to_result(&draw(1));
    assert!(rt; refused == Err(Error::from(Cause::Suspended)));
}

#[test]
fn a_generator_is_printed_by_its_name(rt: HostRuntime) -> Result<(), Fail> {
    let run = Generator::new(Asks::new(rt.alloc(), 2));
    let printed = format!(in rt.alloc(); "{run}")?;
    assert_eq!(rt; printed.as_str(), "Generator");
    Ok(())
}

fn is_same(copy: &NetworkRequest) -> bool {
    copy.protocol == NetworkProtocol::Tcp
        && copy.url.as_str() == "tcp://kdc.example:88"
        && copy.payload.as_slice() == b"abc".as_slice()
}

#[test]
fn a_request_is_copied(rt: HostRuntime) -> Result<(), Fail> {
    let Ok(first) = request(rt.alloc()) else {
        return Err(Fail::from("no request"));
    };
    let copy = first.copy(rt.alloc())?;
    assert!(rt; is_same(&copy));
    Ok(())
}
