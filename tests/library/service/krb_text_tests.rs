//! The cutter of lines, large pieces, and the ends of the outside.

use krb_text::{
    Calls, CutFault, Failed, LineCutter, MemSink, MemSource, Pieces, Sink, Source, StdSink,
    StdSource, SureSource, newline,
};
use std::alloc::{AllocError, Global};
use std::io::{self, Read, Write};
use std::test::Fail;

#[test]
fn the_cutter_cuts_at_line_ends_and_limits(rt: HostRuntime) -> Result<(), Fail> {
    let alloc = rt.alloc();
    let mut cutter = LineCutter::new(alloc);
    assert_eq!(rt; cutter.feed(b"ab\nc"), Ok(3));
    assert_eq!(rt; cutter.ready(), Some(b"ab".as_slice()));
    cutter.next();
    assert_eq!(rt; cutter.feed(b"c"), Ok(1));
    assert_eq!(rt; cutter.rest(), b"c".as_slice());
    assert_eq!(rt; cutter.taken(), 4);
    let mut long = Vec::new(alloc);
    long.resize(1_048_575, b'x')?;
    assert_eq!(rt; cutter.feed(&long), Ok(1_048_575));
    assert_eq!(rt; cutter.feed(b"x"), Err(CutFault::Long));
    assert_eq!(rt; cutter.taken(), 1_048_579);
    assert_eq!(rt; cutter.feed(b"\n"), Ok(1));
    Ok(())
}

#[test]
fn pieces_hold_what_was_read_and_not_taken(rt: HostRuntime) -> Result<(), Fail> {
    let mut source = SureSource::new(b"ab\ncd");
    let mut pieces = Pieces::new(rt.alloc())?;
    let count = pieces.read(&mut source).map_err(|_| "a read failed")?;
    assert_eq!(rt; count, 5);
    assert_eq!(rt; pieces.held(), b"ab\ncd".as_slice());
    assert_eq!(rt; newline(pieces.held()), Some(2));
    assert!(rt; !pieces.is_past());
    pieces.take(count);
    assert!(rt; pieces.held().is_empty());
    assert_eq!(rt; pieces.taken(), 5);
    Ok(())
}

/// A reader that fails, and a writer that takes nothing.
#[derive(Drop)]
struct Stuck;

impl Read for Stuck {
    fn read(&mut self, _: &mut [u8]) -> io::Result<usize> {
        Err(io::Error::from(io::ErrorKind::Other))
    }
}

impl Write for Stuck {
    fn write(&mut self, _: &[u8]) -> io::Result<usize> {
        Ok(0)
    }

    fn flush(&mut self) -> io::Result<()> {
        Ok(())
    }
}

#[test]
fn the_standard_edge_moves_octets_and_tells_faults(rt: HostRuntime) -> Result<(), Fail> {
    let mut piece = [0; 4];
    let mut source = StdSource::new(b"skew 300".as_slice());
    assert_eq!(rt; source.read(&mut piece), Ok(4));
    assert_eq!(rt; piece, *b"skew");
    assert_eq!(rt; StdSource::new(Stuck).read(&mut piece), Err(Failed));
    let mut sink = StdSink::new(Vec::<u8>::new(rt.alloc()));
    assert_eq!(rt; sink.write(b"ok -\n"), Ok(5));
    assert_eq!(rt; StdSink::new(Stuck).write(b"ok -\n"), Err(Failed));
    Ok(())
}

/// The second call fails, and each other one moves three octets at most.
fn second_fails(alloc: Global) -> Result<Calls, AllocError> {
    Ok(Calls::new(Vec::from_slice(alloc, &[2])?, Some(3)))
}

#[test]
fn a_listed_read_fails_and_the_next_goes_on(rt: HostRuntime) -> Result<(), Fail> {
    let mut piece = [0; 4];
    let mut source = MemSource::new(b"skew 3", second_fails(rt.alloc())?);
    assert_eq!(rt; source.read(&mut piece), Ok(3));
    assert_eq!(rt; source.read(&mut piece), Err(Failed));
    assert_eq!(rt; source.read(&mut piece), Ok(3));
    assert_eq!(rt; piece.as_slice().get(..3), Some(b"w 3".as_slice()));
    assert_eq!(rt; source.read(&mut piece), Ok(0));
    Ok(())
}

#[test]
fn a_listed_write_fails_and_the_next_goes_on(rt: HostRuntime) -> Result<(), Fail> {
    let alloc = rt.alloc();
    let mut sink = MemSink::new(alloc, second_fails(alloc)?);
    assert_eq!(rt; sink.write(b"end 0"), Ok(3));
    assert_eq!(rt; sink.write(b" 0"), Err(Failed));
    assert_eq!(rt; sink.write(b" 0"), Ok(2));
    assert_eq!(rt; sink.bytes(), b"end 0".as_slice());
    let mut sound = MemSink::new(alloc, Calls::sound(alloc));
    assert_eq!(rt; sound.write(b"end 0 0"), Ok(7));
    Ok(())
}
