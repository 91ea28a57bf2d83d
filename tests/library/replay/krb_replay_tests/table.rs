//! Two hundred asks over few records, by clocks that jump back, with the answers of a reference that shares no code with the
//! books: a moment and a list of records that only grows. It is here as plain code too.

use super::{ask_for, record, verdict_of};
use krb_replay::Verdict::{self, Admitted, Expired, NotYet, Replayed, Skew};
use krb_replay::{Ask, ReplayBook};
use std::alloc::{AllocError, Global};
use std::test::Fail;

/// The skew of the table, in seconds.
const SKEW: u32 = 5;

/// The client, the octet of cusec, the time, the ticket's start and end, and the moment in microseconds.
type Row = (u8, u8, i64, i64, i64, u64);

/// Each ask with its verdict, and with how many records are in the window after it.
static ASKS: [(Row, Verdict, u64); 200] = [
    ((b'a', 1, 0, -50, 50, 1), Admitted, 1),
    ((b'b', 0, 0, -50, -6, 0), Expired, 1),
    ((b'a', 0, 0, -50, 50, 0), Admitted, 2),
    ((b'a', 1, 0, 6, 50, 2000001), Replayed, 2),
    ((b'a', 0, 0, -50, 50, 999999), Replayed, 2),
    ((b'a', 1, -4, -48, -7, 2000000), Skew, 2),
    ((b'b', 1, 2, 6, 52, 2999999), Admitted, 3),
    ((b'b', 0, 0, -48, 52, 2000000), Admitted, 4),
    ((b'b', 0, 2, 10, 54, 4000000), NotYet, 4),
    ((b'b', 0, 7, -43, 3, 7000001), Admitted, 1),
    ((b'a', 0, 8, 13, 2, 8000000), Expired, 1),
    ((b'a', 0, 8, 14, 58, 8000000), NotYet, 1),
    ((b'a', 0, 2, -42, 58, 10000000), Skew, 1),
    ((b'b', 0, 10, -42, 3, 5999999), Expired, 1),
    ((b'a', 1, 14, -41, 59, 9000001), Admitted, 2),
    ((b'a', 0, 13, -41, 59, 8000001), Admitted, 3),
    ((b'b', 0, 12, -40, 60, 0), Admitted, 4),
    ((b'b', 1, 9, -40, 6, 10000000), Admitted, 5),
    ((b'a', 0, 15, 16, 4, 9000000), NotYet, 5),
    ((b'b', 0, 9, -40, 60, 10000001), Admitted, 6),
    ((b'b', 0, 10, -40, 60, 10000000), Admitted, 7),
    ((b'a', 0, 12, -40, 6, 0), Admitted, 8),
    ((b'a', 0, 16, -40, 60, 12999999), Admitted, 8),
    ((b'b', 0, 10, -40, 60, 10999999), Replayed, 8),
    ((b'b', 0, 6, -40, 4, 12000000), Skew, 8),
    ((b'b', 0, 10, -40, 60, 10000001), Replayed, 8),
    ((b'b', 0, 12, -38, 62, 11000001), Replayed, 8),
    ((b'a', 0, 8, -36, 64, 14000000), Skew, 8),
    ((b'a', 0, 16, -35, 65, 15000000), Replayed, 6),
    ((b'a', 0, 17, -33, 67, 17000000), Admitted, 6),
    ((b'a', 0, 19, 25, 69, 19000000), NotYet, 3),
    ((b'a', 0, 19, 28, 15, 19000000), NotYet, 3),
    ((b'a', 0, 19, -31, 69, 19000000), Admitted, 4),
    ((b'b', 0, 19, 23, 69, 19000000), Admitted, 5),
    ((b'a', 0, 23, -31, 69, 19000000), Admitted, 6),
    ((b'a', 0, 19, -31, 69, 19000001), Replayed, 5),
    ((b'b', 1, 21, -29, 15, 21000000), Expired, 5),
    ((b'b', 0, 26, -29, 71, 21000001), Admitted, 5),
    ((b'a', 0, 23, 26, 71, 15000000), Replayed, 5),
    ((b'b', 1, 15, 30, 17, 21000000), Skew, 5),
    ((b'a', 0, 26, -29, 71, 15000000), Admitted, 6),
    ((b'a', 0, 27, -29, 71, 21000000), Skew, 6),
    ((b'a', 0, 23, -27, 73, 23000001), Replayed, 5),
    ((b'b', 0, 27, 29, 73, 17000000), NotYet, 5),
    ((b'a', 1, 26, -24, 76, 14000001), Admitted, 6),
    ((b'a', 0, 26, -24, 76, 26000001), Replayed, 4),
    ((b'b', 0, 30, 30, 76, 23000000), Admitted, 5),
    ((b'b', 0, 26, -24, 76, 26000000), Replayed, 5),
    ((b'b', 0, 27, -24, 76, 26000000), Admitted, 6),
    ((b'b', 0, 25, -23, 77, 27000000), Admitted, 7),
    ((b'b', 0, 29, -21, 24, 29000000), Admitted, 7),
    ((b'a', 0, 30, -20, 80, 30000000), Admitted, 8),
    ((b'a', 0, 35, -19, 81, 28000000), Admitted, 9),
    ((b'b', 0, 25, -19, 81, 31000000), Skew, 8),
    ((b'b', 0, 37, -17, 28, 33999999), Expired, 4),
    ((b'b', 0, 27, 38, 83, 33000000), Skew, 4),
    ((b'a', 1, 33, 39, 83, 33000000), NotYet, 4),
    ((b'a', 0, 29, -17, 83, 33000001), Admitted, 5),
    ((b'b', 1, 33, -17, 83, 33000000), Admitted, 6),
    ((b'b', 0, 29, 42, 27, 32000000), NotYet, 6),
    ((b'b', 0, 36, 44, 30, 29000000), NotYet, 6),
    ((b'a', 0, 39, -15, 85, 35999999), Admitted, 3),
    ((b'b', 0, 39, -15, 85, 23000000), Admitted, 4),
    ((b'b', 0, 35, -15, 85, 35000000), Admitted, 5),
    ((b'a', 0, 35, -15, 85, 35000001), Replayed, 5),
    ((b'a', 1, 31, -13, 32, 37999999), Skew, 5),
    ((b'b', 0, 39, -10, 90, 37999999), Replayed, 5),
    ((b'b', 0, 39, 44, 90, 34000000), NotYet, 5),
    ((b'b', 0, 40, 46, 90, 40000001), NotYet, 2),
    ((b'b', 0, 40, -10, 90, 39999999), Admitted, 3),
    ((b'b', 1, 40, -10, 90, 40999999), Admitted, 4),
    ((b'a', 1, 38, -10, 34, 40000001), Expired, 4),
    ((b'b', 0, 40, -10, 90, 40000001), Replayed, 4),
    ((b'a', 0, 41, -7, 37, 43000001), Expired, 4),
    ((b'b', 0, 46, 52, 96, 46000000), NotYet, 0),
    ((b'a', 0, 42, -4, 41, 46000000), Admitted, 1),
    ((b'b', 1, 51, -4, 42, 46000000), Admitted, 2),
    ((b'b', 0, 48, -3, 97, 47000001), Admitted, 2),
    ((b'a', 0, 53, -1, 99, 49000000), Admitted, 3),
    ((b'a', 0, 49, 54, 99, 49000001), Admitted, 4),
    ((b'a', 1, 47, 54, 44, 46000000), Expired, 4),
    ((b'a', 0, 53, -1, 99, 43999999), Replayed, 4),
    ((b'a', 0, 50, 56, 100, 52000000), Admitted, 5),
    ((b'b', 0, 50, 59, 100, 50000001), NotYet, 5),
    ((b'b', 0, 48, 0, 44, 50999999), Expired, 5),
    ((b'b', 0, 50, 54, 100, 50000001), Admitted, 6),
    ((b'b', 0, 44, 0, 44, 50000001), Skew, 6),
    ((b'a', 0, 50, 0, 100, 50000000), Replayed, 6),
    ((b'a', 1, 52, 0, 100, 47000001), Admitted, 7),
    ((b'a', 0, 54, 59, 46, 38000000), NotYet, 7),
    ((b'a', 0, 44, 0, 100, 50999999), Skew, 7),
    ((b'a', 0, 50, 0, 100, 44000000), Replayed, 7),
    ((b'b', 0, 51, 0, 100, 52999999), Admitted, 8),
    ((b'a', 0, 54, 0, 100, 49000001), Admitted, 9),
    ((b'b', 0, 50, 59, 100, 49000000), NotYet, 9),
    ((b'b', 0, 55, 0, 41, 47999999), Expired, 9),
    ((b'a', 0, 49, 0, 100, 50000001), Replayed, 9),
    ((b'a', 0, 54, 57, 102, 52000000), Replayed, 9),
    ((b'a', 0, 46, 2, 102, 46000001), Skew, 9),
    ((b'b', 0, 46, 2, 48, 52000001), Skew, 9),
    ((b'b', 0, 52, 2, 102, 52000000), Admitted, 10),
    ((b'a', 0, 52, 57, 102, 54000000), Admitted, 10),
    ((b'b', 1, 59, 59, 104, 54000000), Admitted, 11),
    ((b'b', 0, 51, 6, 106, 55000000), Replayed, 10),
    ((b'b', 0, 59, 9, 109, 59000000), Admitted, 3),
    ((b'b', 0, 59, 9, 109, 59999999), Replayed, 2),
    ((b'a', 0, 67, 12, 57, 59000000), Skew, 2),
    ((b'b', 0, 65, 71, 115, 65000000), NotYet, 0),
    ((b'b', 0, 65, 74, 115, 65000000), NotYet, 0),
    ((b'b', 0, 65, 15, 115, 64000000), Admitted, 1),
    ((b'a', 1, 71, 71, 115, 65000000), Skew, 1),
    ((b'b', 1, 70, 74, 115, 59000000), NotYet, 1),
    ((b'b', 0, 63, 15, 60, 65000001), Expired, 1),
    ((b'a', 1, 64, 15, 60, 65000000), Expired, 1),
    ((b'b', 0, 69, 70, 61, 64000000), Admitted, 2),
    ((b'a', 0, 63, 15, 61, 62000000), Admitted, 3),
    ((b'a', 0, 65, 69, 115, 62000000), Admitted, 4),
    ((b'b', 1, 63, 15, 60, 65999999), Expired, 4),
    ((b'b', 0, 72, 76, 117, 55000000), Skew, 4),
    ((b'a', 0, 61, 17, 117, 64000000), Admitted, 5),
    ((b'a', 0, 66, 20, 120, 64000001), Admitted, 6),
    ((b'a', 0, 71, 20, 64, 70999999), Expired, 2),
    ((b'b', 0, 73, 23, 123, 75000000), Admitted, 1),
    ((b'b', 0, 69, 23, 123, 75999999), Skew, 1),
    ((b'b', 1, 72, 23, 69, 61000000), Expired, 1),
    ((b'b', 0, 73, 23, 68, 75000000), Expired, 1),
    ((b'a', 0, 73, 23, 123, 73000000), Admitted, 2),
    ((b'a', 0, 75, 23, 123, 73999999), Admitted, 3),
    ((b'b', 0, 73, 23, 123, 61999999), Replayed, 3),
    ((b'a', 0, 74, 24, 124, 71000000), Admitted, 4),
    ((b'b', 0, 74, 24, 124, 68000000), Admitted, 5),
    ((b'a', 0, 72, 83, 124, 76000000), NotYet, 5),
    ((b'b', 0, 73, 25, 125, 75999999), Replayed, 5),
    ((b'b', 0, 69, 84, 125, 63999999), Skew, 5),
    ((b'b', 0, 74, 26, 126, 76999999), Replayed, 5),
    ((b'a', 0, 79, 29, 129, 79000000), Admitted, 4),
    ((b'b', 1, 79, 84, 129, 79000000), Admitted, 5),
    ((b'a', 1, 80, 29, 75, 79000000), Admitted, 6),
    ((b'b', 0, 82, 32, 78, 79000001), Admitted, 5),
    ((b'a', 0, 83, 88, 133, 83000000), Admitted, 5),
    ((b'b', 0, 86, 92, 81, 80000000), NotYet, 5),
    ((b'a', 0, 85, 92, 137, 87000001), Admitted, 2),
    ((b'b', 0, 88, 92, 78, 87000001), Expired, 2),
    ((b'a', 1, 88, 37, 137, 81000001), Admitted, 3),
    ((b'a', 0, 83, 91, 78, 86000000), Expired, 3),
    ((b'b', 0, 93, 37, 137, 87000000), Skew, 3),
    ((b'a', 0, 87, 37, 137, 87999999), Admitted, 4),
    ((b'b', 0, 87, 37, 83, 87999999), Admitted, 5),
    ((b'b', 1, 88, 91, 137, 84000001), Admitted, 6),
    ((b'a', 0, 93, 94, 138, 82000000), Skew, 6),
    ((b'b', 0, 88, 38, 138, 76000000), Admitted, 7),
    ((b'b', 0, 88, 93, 138, 88000000), Replayed, 7),
    ((b'b', 0, 88, 38, 138, 88000001), Replayed, 6),
    ((b'a', 1, 87, 38, 138, 88000000), Admitted, 7),
    ((b'a', 1, 87, 38, 138, 88000000), Replayed, 7),
    ((b'a', 0, 88, 38, 138, 88000000), Admitted, 8),
    ((b'a', 1, 88, 38, 138, 88000000), Replayed, 8),
    ((b'b', 0, 88, 38, 138, 90000000), Replayed, 8),
    ((b'b', 0, 89, 93, 84, 89000001), Expired, 8),
    ((b'a', 0, 89, 39, 139, 89000001), Admitted, 9),
    ((b'a', 0, 89, 39, 139, 89000000), Replayed, 9),
    ((b'b', 0, 91, 39, 139, 89000000), Admitted, 10),
    ((b'a', 1, 90, 96, 140, 90999999), NotYet, 9),
    ((b'b', 0, 94, 40, 84, 87000001), Expired, 9),
    ((b'b', 1, 90, 40, 140, 90000000), Admitted, 10),
    ((b'b', 0, 96, 40, 140, 90999999), Skew, 10),
    ((b'a', 0, 94, 40, 140, 90000000), Admitted, 11),
    ((b'b', 0, 90, 40, 140, 87000000), Admitted, 12),
    ((b'b', 0, 90, 40, 140, 87000000), Replayed, 12),
    ((b'a', 0, 91, 40, 140, 90000000), Admitted, 13),
    ((b'b', 0, 91, 41, 141, 79000000), Replayed, 13),
    ((b'b', 0, 91, 41, 141, 91000000), Replayed, 13),
    ((b'b', 0, 91, 96, 141, 90000001), Replayed, 13),
    ((b'b', 1, 91, 43, 143, 92000000), Admitted, 14),
    ((b'a', 0, 93, 43, 84, 93000000), Expired, 11),
    ((b'b', 1, 95, 43, 143, 90000000), Admitted, 12),
    ((b'a', 1, 95, 45, 145, 95000001), Admitted, 6),
    ((b'a', 0, 100, 45, 145, 94000000), Admitted, 7),
    ((b'b', 0, 91, 46, 146, 96999999), Skew, 4),
    ((b'b', 0, 90, 100, 87, 96000000), Skew, 4),
    ((b'b', 0, 96, 46, 146, 96000000), Admitted, 5),
    ((b'a', 0, 94, 46, 146, 98000001), Replayed, 5),
    ((b'a', 1, 97, 47, 147, 96000001), Admitted, 6),
    ((b'b', 1, 96, 47, 147, 91000000), Admitted, 7),
    ((b'b', 0, 93, 101, 88, 96000001), Skew, 7),
    ((b'b', 0, 93, 47, 92, 97000000), Skew, 7),
    ((b'a', 1, 97, 103, 147, 97000000), Replayed, 7),
    ((b'b', 0, 97, 106, 147, 97999999), NotYet, 7),
    ((b'a', 0, 97, 47, 147, 97000000), Admitted, 8),
    ((b'a', 0, 97, 106, 147, 97999999), NotYet, 8),
    ((b'b', 0, 96, 48, 148, 98000000), Replayed, 8),
    ((b'a', 0, 98, 48, 148, 98000001), Admitted, 9),
    ((b'a', 0, 105, 103, 93, 101000000), Expired, 6),
    ((b'b', 0, 99, 105, 149, 93999999), Admitted, 7),
    ((b'a', 0, 99, 103, 149, 96000000), Admitted, 8),
    ((b'a', 1, 99, 49, 95, 99999999), Expired, 8),
    ((b'b', 0, 93, 103, 149, 87999999), Skew, 8),
    ((b'b', 0, 99, 49, 149, 101000000), Replayed, 8),
    ((b'a', 1, 100, 109, 150, 100000000), NotYet, 8),
    ((b'a', 0, 95, 105, 96, 94000001), Skew, 8),
];

fn asks() -> &'static [(Row, Verdict, u64)] {
    &ASKS
}

fn ask(alloc: Global, (client, cusec, ctime, start, end, moment): Row) -> Result<Ask, Fail> {
    let entry = record(alloc, &[client], cusec, ctime)?;
    ask_for(alloc, 2, entry, (start, end), moment)
}

/// The verdict of this book and how many records are in its window then.
fn answer(alloc: Global, book: &mut ReplayBook, row: Row) -> Result<(Verdict, u64), Fail> {
    let ask = ask(alloc, row)?;
    let verdict = verdict_of(book, ask)?;
    Ok((verdict, book.kept()))
}

#[test]
fn a_book_answers_as_the_reference(rt: HostRuntime) -> Result<(), Fail> {
    let mut book = ReplayBook::new(rt.alloc(), SKEW)?;
    for &(row, verdict, kept) in asks() {
        assert_eq!(rt; answer(rt.alloc(), &mut book, row)?, (verdict, kept));
    }
    Ok(())
}

/// Whether the first is later by more than the skew, both in microseconds.
fn is_later(a: i128, b: i128) -> bool {
    a > b.saturating_add(5_000_000)
}

fn clock_refuses(moment: i128, &(_, _, ctime, start, end, _): &Row) -> Option<Verdict> {
    let ctime = i128::from(ctime).saturating_mul(1_000_000);
    if is_later(ctime, moment) || is_later(moment, ctime) {
        Some(Skew)
    } else if is_later(i128::from(start).saturating_mul(1_000_000), moment) {
        Some(NotYet)
    } else if is_later(moment, i128::from(end).saturating_mul(1_000_000)) {
        Some(Expired)
    } else {
        None
    }
}

/// The reference: the client, the octet of cusec and the time of each record that was admitted.
fn plain_verdict(
    moment: u64,
    admitted: &mut Vec<(u8, u8, i64)>,
    row: &Row,
) -> Result<Verdict, AllocError> {
    if let Some(refusal) = clock_refuses(i128::from(moment), row) {
        return Ok(refusal);
    }
    let &(client, cusec, ctime, _, _, _) = row;
    let entry = (client, cusec, ctime);
    if admitted.contains(&entry) {
        return Ok(Replayed);
    }
    admitted.push(entry)?;
    Ok(Admitted)
}

#[test]
fn the_reference_gives_the_table(rt: HostRuntime) -> Result<(), Fail> {
    let mut admitted = Vec::new(rt.alloc());
    let mut moment = 0;
    for (row, verdict, _) in asks() {
        moment = row.5.max(moment);
        assert_eq!(rt; plain_verdict(moment, &mut admitted, row)?, *verdict);
    }
    Ok(())
}
