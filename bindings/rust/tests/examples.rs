//! Document 01's examples through the safe wrapper.
use narguvesh::{merge, Drop, EventAnswer, Refusal, EVENTS};

/// A sheet, written bit after bit.
#[derive(Default)]
struct Sheet {
    bytes: Vec<u8>,
    bits: usize,
}

impl Sheet {
    fn put(mut self, value: u64, width: u32) -> Sheet {
        for place in (0..width).rev() {
            if self.bits % 8 == 0 {
                self.bytes.push(0);
            }
            if value >> place & 1 == 1 {
                *self.bytes.last_mut().unwrap() |= 0x80 >> (self.bits % 8);
            }
            self.bits += 1;
        }
        self
    }

    fn file(self, claim: u64, path: &str) -> Sheet {
        let start = self.put(1, 3).put(0, 1).put(claim, 3).put(path.len() as u64, 8);
        path.bytes().fold(start, |sheet, byte| sheet.put(byte.into(), 8))
    }

    fn source(self, file: u64, id: u64) -> Sheet {
        self.put(2, 3).put(file, 5).put(id, 32)
    }

    fn snapshot(self, source: u64, from: (u64, i64), to: (u64, i64)) -> Sheet {
        self.put(3, 3).put(source, 5).put(from.0, 3).put(from.1 as u64, 64).put(to.0, 3).put(to.1 as u64, 64)
    }

    fn event(self, source: u64, clock: u64, reading: i64) -> Sheet {
        self.put(4, 3).put(source, 5).put(clock, 3).put(reading as u64, 64)
    }

    fn end(self) -> Vec<u8> {
        let mut sheet = self.put(0, 3);
        while sheet.bits % 8 != 0 {
            sheet = sheet.put(0, 1);
        }
        sheet.bytes
    }
}

fn placed(time: i64, graph: u8, steps: u16) -> EventAnswer {
    EventAnswer::Placed { time, graph, steps }
}

/// Document 000's example, with what else stands in `trace_time`, and an offset.
fn example(more: &str, offset: &str) -> String {
    format!(
        r#"{{"perfetto_manifest": {{"version": 1, "trace_time": {{"clock": "BOOTTIME"{more}}}, "files": [
            {{"path": "phone.pftrace", "machine": {{"name": "phone"}}}},
            {{"path": "watch.pftrace", "machine": {{"name": "watch"}}}},
            {{"path": "app_log.json", "clocks": {{"sync_to": {{"file": "phone.pftrace", "clock": "BOOTTIME"}}, "offset_ns": {offset}}}}}]}}}}"#
    )
}

fn example_sheet() -> Vec<u8> {
    let files = Sheet::default().file(0, "phone.pftrace").file(0, "watch.pftrace").file(0, "app_log.json");
    files.source(0, 0).source(1, 0).source(2, 0).event(2, 0, 7).end()
}

#[test]
fn one_event() {
    let sheet = [0x2c, 0x02, 0xc2, 0x80, 0, 0, 0, 1, 1, 0x80, 0, 0, 0, 0, 0, 0, 1, 0x40];
    let merged = merge(b"", &sheet).unwrap();
    assert_eq!((merged.files, merged.machine_count, merged.trace), (1, 1, Some(5)));
    assert_eq!(merged.events, [placed(5, 1, 0)]);
}

#[test]
fn an_empty_sheet() {
    let merged = merge(b"", &[0]).unwrap();
    assert_eq!((merged.files, merged.machine_count, merged.trace), (0, 1, None));
    assert!(merged.events.is_empty());
}

#[test]
fn no_sheet() {
    assert_eq!(merge(b"", b""), Err(Refusal(25)));
    assert_eq!(Refusal(25).to_string(), "refused 25");
}

#[test]
fn the_example() {
    let merged = merge(example("", "250000000").as_bytes(), &example_sheet()).unwrap();
    assert_eq!((merged.files, merged.machine_count, merged.trace), (3, 3, Some(5)));
    assert_eq!(merged.machines[..4], [1, 2, 0, 0]);
    assert_eq!(merged.events, [placed(250000007, 3, 2)]);
}

#[test]
fn trace_time_on_the_phone() {
    let on_phone = r#", "file": "phone.pftrace""#;
    let merged = merge(example(on_phone, "250000000").as_bytes(), &example_sheet()).unwrap();
    assert_eq!(merged.trace, Some(11));
    assert_eq!(merged.events, [placed(250000007, 1, 1)]);
    let early = merge(example(on_phone, "-8").as_bytes(), &example_sheet()).unwrap();
    assert_eq!(early.events, [EventAnswer::Dropped(Drop::BeforeStart)]);
}

#[test]
fn offsets_at_the_ends() {
    assert_eq!(merge(example("", "-9223372036854775808").as_bytes(), &example_sheet()), Err(Refusal(23)));
    let least = merge(example("", "-9223372036854775807").as_bytes(), &example_sheet()).unwrap();
    assert_eq!(least.events, [EventAnswer::Dropped(Drop::BeforeStart)]);
    let most = merge(example("", "9223372036854775807").as_bytes(), &example_sheet()).unwrap();
    assert_eq!(most.events, [EventAnswer::Dropped(Drop::OutOfRange)]);
}

#[test]
fn a_list_of_snapshots() {
    let sheet = Sheet::default().file(1, "a").source(0, 0).source(0, 9);
    let sheet = sheet.snapshot(0, (2, 100), (1, 1000)).snapshot(0, (2, 200), (1, 1110));
    let sheet = sheet.event(0, 2, 150).event(0, 2, 199).event(0, 2, 200).event(0, 2, 50).event(1, 4, 77);
    let merged = merge(b"", &sheet.end()).unwrap();
    let [a, b, c, d] = [1050, 1099, 1110, 950].map(|time| placed(time, 1, 1));
    assert_eq!(merged.events, [a, b, c, d, EventAnswer::Dropped(Drop::Unrelated)]);
    assert_eq!(merged.machines[..2], [0, 1]);
}

#[test]
fn as_many_events_as_fit() {
    let mut sheet = Sheet::default().file(6, "a").source(0, 0);
    let mut events = 0;
    while sheet.bits + 78 <= 8 * 65536 {
        sheet = sheet.event(0, 6, events);
        events += 1;
    }
    let merged = merge(b"", &sheet.end()).unwrap();
    assert_eq!(merged.events.len() as i64, events);
    assert!(merged.events.len() <= EVENTS);
    assert_eq!(merged.events.last(), Some(&placed(events - 1, 1, 0)));
}

#[test]
fn threads_at_once() {
    let sheet = example_sheet();
    std::thread::scope(|scope| {
        let each: Vec<_> = (0..8).map(|k| (k, scope.spawn(|| merge(example("", "250000000").as_bytes(), &sheet)))).collect();
        for (_, thread) in each {
            assert_eq!(thread.join().unwrap().unwrap().events, [placed(250000007, 3, 2)]);
        }
    });
}
