use riegeli::{Error, Options, Pad, Piece, Reader, Reason, Region, Writer};
use std::error::Error as _;
use std::io::{self, ErrorKind, Write};
use std::panic::{catch_unwind, AssertUnwindSafe};

fn file_of(records: &[&[u8]], options: Options) -> Vec<u8> {
    let mut writer = Writer::new(Vec::new(), options).unwrap();
    for record in records {
        writer.write(record).unwrap();
    }
    writer.finish().unwrap()
}

fn letters() -> Vec<u8> {
    let options = Options { chunk: 1, ..Options::default() };
    file_of(&[b"a", b"b", b"c"], options)
}

fn records_of(reader: Reader) -> Vec<Vec<u8>> {
    reader.records().map(|it| it.unwrap().bytes).collect()
}

fn is_fault(error: &Error, at: u64, why: Reason) -> bool {
    matches!(error, Error::Fault { place, reason } if *place == at && *reason == why)
}

#[test]
fn what_is_written_is_read() {
    let options = Options { every: Some(2), ..Options::default() };
    let file = file_of(&[b"a", b"bc", b"", b"d"], options);
    let reader = Reader::new(&file);
    let records: Vec<_> = reader.records().map(|it| it.unwrap()).collect();
    let places: Vec<_> = records.iter().map(|it| (it.position, &it.bytes[..])).collect();
    assert_eq!(places, [(64, &b"a"[..]), (65, b"bc"), (111, b""), (112, b"d")]);
    let chunks: Vec<_> = reader.chunks().map(|it| it.unwrap()).collect();
    assert_eq!((chunks.len(), chunks[0].len(), chunks[0].end), (2, 2, 111));
    assert_eq!(chunks[0].iter().collect::<Vec<_>>(), [&b"a"[..], b"bc"]);
    let totals = reader.verify().unwrap();
    assert_eq!((totals.chunks, totals.records, totals.bytes), (3, 4, file.len() as u64));
}

#[test]
fn chunks_are_laid_as_records_come() {
    let records: Vec<Vec<u8>> = (0..200_000u32).map(|i| i.to_string().into_bytes()).collect();
    let lent: Vec<&[u8]> = records.iter().map(|it| &it[..]).collect();
    let options = Options { chunk: 5000, pad: Pad::Both, ..Options::default() };
    let file = file_of(&lent, options);
    assert_eq!(file.len() % 65536, 0);
    let reader = Reader::new(&file);
    assert_eq!(records_of(reader), records);

    let places: Vec<u64> = (0..=4).map(|i| reader.split(i * file.len() as u64 / 4).unwrap()).collect();
    let parts = places.windows(2).flat_map(|it| reader.chunks_between(it[0], it[1]));
    assert_eq!(parts.map(|it| it.unwrap().len()).sum::<usize>(), records.len());
    assert!(matches!(reader.chunks_between(0, 66000).last(), Some(Err(Error::Argument))));
}

#[test]
fn records_are_found() {
    let records: Vec<Vec<u8>> = (0..20_000u32).map(|i| format!("{i:06}").into_bytes()).collect();
    let lent: Vec<&[u8]> = records.iter().map(|it| &it[..]).collect();
    let options = Options { chunk: 1000, ..Options::default() };
    let file = file_of(&lent, options);
    let reader = Reader::new(&file);
    for record in reader.records().step_by(997).map(|it| it.unwrap()) {
        let found = reader.at(record.position).unwrap().unwrap();
        assert_eq!((found.position, &found.bytes), (record.position, &record.bytes));
        assert_eq!(reader.find(&record.bytes).unwrap().unwrap().position, record.position);
    }
    assert!(reader.find(b"1").unwrap().is_none());
    assert!(reader.at(u64::MAX).unwrap().is_none());
}

#[test]
fn a_fault_comes_behind_the_records_before_it() {
    let mut file = letters();
    file[151] ^= 1;
    let reader = Reader::new(&file);
    let mut records = reader.records();
    assert_eq!(records.next().unwrap().unwrap().bytes, b"a");
    let error = records.next().unwrap().unwrap_err();
    assert!(is_fault(&error, 108, Reason::DataHash));
    assert_eq!(error.to_string(), "refused 108 DataHash");
    assert!(records.next().is_none());
    assert!(is_fault(&reader.verify().unwrap_err(), 108, Reason::DataHash));
}

#[test]
fn damage_is_passed_over() {
    let mut file = letters();
    file[151] ^= 1;
    let reader = Reader::new(&file);
    let region = Region { begin: 108, end: 152, reason: Reason::DataHash };
    let pieces: Vec<_> = reader.recover().map(|it| it.unwrap()).collect();
    assert!(matches!(&pieces[..], [Piece::Records(_), Piece::Skipped(it), Piece::Records(_)] if *it == region));
    let repaired = reader.repair(u64::MAX).unwrap();
    assert_eq!(repaired.lines, "skipped 108 152 DataHash\n");
    assert_eq!(records_of(Reader::new(&repaired.file)), [b"a", b"c"]);
    assert!(matches!(reader.repair(43), Err(Error::Stopped(it)) if it == region));
}

#[test]
fn a_file_without_bytes_has_a_fault() {
    let reader = Reader::new(&[]);
    assert!(is_fault(&reader.verify().unwrap_err(), 0, Reason::NoSignature));
    assert!(is_fault(&reader.records().next().unwrap().unwrap_err(), 0, Reason::NoSignature));
    assert_eq!(reader.recover().count(), 0);
    assert_eq!(file_of(&[], Options::default()).len(), 64);
}

#[test]
fn options_out_of_range_are_refused() {
    let whole = Options::default();
    for (chunk, every) in [(0, None), ((1 << 24) + 1, None), (1, Some(0)), (1, Some((1 << 24) + 1))] {
        let options = Options { chunk, every, ..whole };
        assert!(matches!(Writer::new(Vec::new(), options), Err(Error::Argument)));
    }
    let largest = Options { chunk: 1 << 24, every: Some(1 << 24), ..whole };
    assert_eq!(file_of(&[], largest).len(), 64);
}

#[test]
fn a_writer_that_is_dropped_writes_what_it_held() {
    let mut file = Vec::new();
    let mut writer = Writer::new(&mut file, Options::default()).unwrap();
    writer.write(b"a").unwrap();
    drop(writer);
    assert_eq!(records_of(Reader::new(&file)), [b"a"]);
}

#[test]
fn an_error_of_writing_is_the_source() {
    let error = Error::from(io::Error::from(ErrorKind::StorageFull));
    let source = error.source().unwrap().downcast_ref::<io::Error>().unwrap();
    assert_eq!(source.kind(), ErrorKind::StorageFull);
    assert!(Error::Memory.source().is_none());
}

#[test]
fn a_record_that_is_too_long_is_left_out() {
    let mut writer = Writer::new(Vec::new(), Options::default()).unwrap();
    writer.write(b"a").unwrap();
    assert!(matches!(writer.write(&vec![0; (1 << 24) + 1]), Err(Error::Argument)));
    writer.write(b"b").unwrap();
    writer.write(&vec![0; 1 << 24]).unwrap();
    let file = writer.finish().unwrap();
    assert_eq!(records_of(Reader::new(&file)), [b"a".to_vec(), b"b".to_vec(), vec![0; 1 << 24]]);
}

/// Fails once, in the middle of a chunk, and takes all else.
struct FailsOnce {
    taken: usize,
    panics: bool,
}

impl Write for FailsOnce {
    fn write(&mut self, bytes: &[u8]) -> io::Result<usize> {
        let is_before = self.taken < 500_000;
        self.taken += bytes.len().min(1000);
        if is_before && self.taken >= 500_000 {
            assert!(!self.panics);
            return Err(ErrorKind::WouldBlock.into());
        }
        Ok(bytes.len().min(1000))
    }

    fn flush(&mut self) -> io::Result<()> {
        Ok(())
    }
}

#[test]
fn after_a_failure_each_call_gives_it() {
    for (panics, kind) in [(false, ErrorKind::WouldBlock), (true, ErrorKind::Other)] {
        let mut writer = Writer::new(FailsOnce { taken: 0, panics }, Options::default()).unwrap();
        let write = || (0..10_000).try_for_each(|_| writer.write(&[0; 1000]));
        assert!(!matches!(catch_unwind(AssertUnwindSafe(write)), Ok(Ok(()))));
        assert!(matches!(writer.write(b"a"), Err(Error::Io(it)) if it.kind() == kind));
        assert!(matches!(writer.finish(), Err(Error::Io(it)) if it.kind() == kind));
    }
}

#[test]
fn the_hash_is_that_of_headers() {
    let file = letters();
    assert_eq!(riegeli::hash(&file[32..64]).to_le_bytes(), file[24..32]);
    assert_eq!(unsafe { riegeli::sys::riegeli_version() }, riegeli::sys::VERSION);
}
