//! A live desk for Rust programs that `cargo` builds: a thin layer over librbc, which is proved. This layer is not. The
//! codec is in [`codec`].
//!
//! A [`Fault`] changes nothing: the desk goes on after it, and the line may be fed again. A refused line is no fault.
//! Nothing is allocated behind a line that was taken. `rbc.h` says what each field means; `examples/live.rs` and
//! `examples/desk.rs` are whole programs.

pub mod codec;

use std::collections::TryReserveError;
use std::ffi::c_void;
use std::fmt;
use std::ptr;

/// `RBC_VERSION` of the `rbc.h` that the structs below repeat.
const VERSION: u8 = 3;

const DONE: u32 = 0;
const ROOM: u32 = 3;

#[repr(C)]
struct RawDesk {
    version: u8,
    open: u8,
    memory: *mut c_void,
}

#[repr(C)]
#[derive(Clone, Copy)]
struct RawAnswer {
    refused: u32,
    count: usize,
}

/// A message to one train.
#[repr(C)]
#[derive(Clone, Copy)]
pub struct Message {
    /// NID_ENGINE, 0 to 16777215.
    pub engine: u32,
    length: u32,
    bytes: [u8; 1024],
}

impl Message {
    const EMPTY: Message = Message { engine: 0, length: 0, bytes: [0; 1024] };

    /// The bytes as they are sent.
    pub fn bytes(&self) -> &[u8] {
        &self.bytes[..self.length as usize]
    }
}

/// An alarm that stands. The order is by engine, kind and number.
#[repr(C)]
#[derive(Clone, Copy, Debug, PartialEq, Eq, PartialOrd, Ord)]
pub struct Alarm {
    /// NID_ENGINE of the train.
    pub engine: u32,
    /// What the train does not know, or what the desk does not know of it.
    pub kind: AlarmKind,
    /// The number of the stop or the restriction; 0 at [`AlarmKind::PLACE`].
    pub number: u32,
}

impl Alarm {
    const EMPTY: Alarm = Alarm { engine: 0, kind: AlarmKind::PLACE, number: 0 };
}

/// `RBC_ALARM_PLACE` and the others of `rbc.h`.
#[repr(transparent)]
#[derive(Clone, Copy, Debug, PartialEq, Eq, PartialOrd, Ord)]
pub struct AlarmKind(pub u32);

impl AlarmKind {
    pub const PLACE: AlarmKind = AlarmKind(0);
    pub const STOP: AlarmKind = AlarmKind(1);
    pub const RESTRICTION: AlarmKind = AlarmKind(2);
    pub const ANSWER: AlarmKind = AlarmKind(3);
}

/// How a train faces, or which trains a restriction is for: `RBC_DOWN` and the others of `rbc.h`.
#[repr(transparent)]
#[derive(Clone, Copy, Debug, Default, PartialEq, Eq)]
pub struct Way(pub u32);

impl Way {
    pub const DOWN: Way = Way(0);
    pub const UP: Way = Way(1);
    pub const BOTH: Way = Way(2);
}

/// A train that is enrolled.
#[repr(C)]
#[derive(Clone, Copy, Debug, Default, PartialEq, Eq)]
pub struct Train {
    pub engine: u32,
    pub length: u32,
    pub stamp: u32,
    /// 1 if its place is known. If it is 0, so are the next four.
    pub placed: u32,
    pub line: u32,
    pub from: u32,
    pub to: u32,
    pub facing: Way,
    /// How many of its stop identifiers are held.
    pub stops: u32,
    /// How many of its restriction identifiers are held.
    pub restrictions: u32,
}

/// One segment of an active stop.
#[repr(C)]
#[derive(Clone, Copy, Debug, Default, PartialEq, Eq)]
pub struct StopSegment {
    pub number: u32,
    pub line: u32,
    pub from: u32,
    pub to: u32,
}

/// An active restriction.
#[repr(C)]
#[derive(Clone, Copy, Debug, Default, PartialEq, Eq)]
pub struct Restriction {
    pub number: u32,
    pub line: u32,
    pub from: u32,
    pub to: u32,
    pub ways: Way,
    /// In km/h.
    pub speed: u32,
    /// Q_FRONT.
    pub front: u32,
}

/// An identifier whose message waits for an answer or an acknowledgement.
#[repr(C)]
#[derive(Clone, Copy, Debug, Default, PartialEq, Eq)]
pub struct Outstanding {
    pub engine: u32,
    pub kind: Waits,
    /// The number of the stop or the restriction; 0 if the identifier is being revoked.
    pub number: u32,
    pub identifier: u32,
    pub stamp: u32,
}

/// `RBC_WAITS_CONDITIONAL_STOP` and the others of `rbc.h`.
#[repr(transparent)]
#[derive(Clone, Copy, Debug, Default, PartialEq, Eq)]
pub struct Waits(pub u32);

impl Waits {
    pub const CONDITIONAL_STOP: Waits = Waits(0);
    pub const UNCONDITIONAL_STOP: Waits = Waits(1);
    pub const RESTRICTION: Waits = Waits(2);
    pub const REVOCATION_OF_STOP: Waits = Waits(3);
    pub const REVOCATION_OF_RESTRICTION: Waits = Waits(4);
}

#[repr(C)]
#[derive(Clone, Copy, Default)]
struct RawReport {
    refused: u32,
    warnings: usize,
    count: usize,
}

/// What came of the check of a track.
#[derive(Clone, Debug, PartialEq, Eq)]
pub struct Report {
    /// 0 if it is a track. Else the rule that its text breaks first, a number of `rbc.h`.
    pub refused: u32,
    pub warnings: usize,
    /// The report of `dispatch check`.
    pub text: String,
}

// The library is linked by these sizes.
const _: () = assert!(std::mem::size_of::<Train>() == 40);
const _: () = assert!(std::mem::size_of::<StopSegment>() == 16);
const _: () = assert!(std::mem::size_of::<Restriction>() == 28);
const _: () = assert!(std::mem::size_of::<Outstanding>() == 20);
const _: () = assert!(std::mem::size_of::<RawReport>() == 24);

extern "C" {
    fn rbc_open(desk: *mut RawDesk, track: *const u8, length: usize) -> u32;
    fn rbc_feed(
        desk: *mut RawDesk,
        line: *const u8,
        length: usize,
        out: *mut Message,
        room: usize,
        answer: *mut RawAnswer,
    ) -> u32;
    fn rbc_alarms(desk: *mut RawDesk, out: *mut Alarm, room: usize, count: *mut usize) -> u32;
    fn rbc_trains(desk: *mut RawDesk, out: *mut Train, room: usize, count: *mut usize) -> u32;
    fn rbc_stops(desk: *mut RawDesk, out: *mut StopSegment, room: usize, count: *mut usize) -> u32;
    fn rbc_restrictions(desk: *mut RawDesk, out: *mut Restriction, room: usize, count: *mut usize) -> u32;
    fn rbc_outstanding(desk: *mut RawDesk, out: *mut Outstanding, room: usize, count: *mut usize) -> u32;
    fn rbc_explain_line(
        desk: *mut RawDesk,
        line: *const u8,
        length: usize,
        out: *mut u8,
        room: usize,
        count: *mut usize,
    ) -> u32;
    fn rbc_check(track: *const u8, length: usize, out: *mut u8, room: usize, report: *mut RawReport) -> u32;
    fn rbc_rules() -> u32;
    fn rbc_close(desk: *mut RawDesk) -> u32;
}

/// Why a call was not done: a number of `rbc.h`. Nothing is changed by it.
#[derive(Clone, Copy, Debug, PartialEq, Eq)]
pub struct Fault(pub u32);

impl Fault {
    /// There was no memory, in the library or for room.
    pub const MEMORY: Fault = Fault(1);
}

impl fmt::Display for Fault {
    fn fmt(&self, f: &mut fmt::Formatter<'_>) -> fmt::Result {
        write!(f, "fault {} of rbc.h", self.0)
    }
}

impl std::error::Error for Fault {}

impl From<TryReserveError> for Fault {
    fn from(_: TryReserveError) -> Fault {
        Fault::MEMORY
    }
}

fn done(code: u32) -> Result<(), Fault> {
    if code == DONE {
        Ok(())
    } else {
        Err(Fault(code))
    }
}

/// Room for so many elements.
fn make_room<T: Copy>(out: &mut Vec<T>, count: usize, empty: T) -> Result<(), Fault> {
    out.try_reserve_exact(count.saturating_sub(out.len()))?;
    out.resize(count, empty);
    Ok(())
}

/// The list that a call gives. The call gets room and its size, and says how long the list is. The room grows until it
/// is enough.
fn list<T: Copy>(empty: T, mut call: impl FnMut(*mut T, usize, &mut usize) -> u32) -> Result<Vec<T>, Fault> {
    let mut found = Vec::new();
    loop {
        let mut count = 0;
        done(call(found.as_mut_ptr(), found.len(), &mut count))?;
        if count <= found.len() {
            found.truncate(count);
            return Ok(found);
        }
        make_room(&mut found, count, empty)?;
    }
}

fn text(bytes: Vec<u8>) -> String {
    String::from_utf8_lossy(&bytes).into_owned()
}

/// The number of the rules, as `dispatch --version` tells it.
pub fn rules() -> u32 {
    // SAFETY: it takes nothing.
    unsafe { rbc_rules() }
}

/// Checks the text of a track, as `dispatch check` does.
pub fn check(track: &str) -> Result<Report, Fault> {
    let mut report = RawReport::default();
    let bytes = list(0, |out, room, count| {
        // SAFETY: each pointer goes with its length or its room.
        let code = unsafe { rbc_check(track.as_ptr(), track.len(), out, room, &mut report) };
        *count = report.count;
        code
    })?;
    Ok(Report { refused: report.refused, warnings: report.warnings, text: text(bytes) })
}

/// What a line led to.
pub enum Reply<'a> {
    /// It was accepted, and sent these messages, in this order.
    Done(&'a [Message]),
    /// It was refused with this code, and changed nothing.
    Refused(u32),
}

/// A desk that is open until it is dropped.
pub struct Desk {
    raw: RawDesk,
    out: Vec<Message>,
}

// A desk is used by one call at a time, since each takes `&mut self`; it may go from thread to thread (rbc.h).
unsafe impl Send for Desk {}

impl Desk {
    /// Opens a desk on the text of a track.
    pub fn open(track: &str) -> Result<Desk, Fault> {
        let mut raw = RawDesk { version: VERSION, open: 0, memory: ptr::null_mut() };
        // SAFETY: the handle is none yet, and the text is as long as it says.
        done(unsafe { rbc_open(&mut raw, track.as_ptr(), track.len()) })?;
        Ok(Desk { raw, out: Vec::new() })
    }

    /// Feeds one line, without its line feed.
    pub fn feed(&mut self, line: &[u8]) -> Result<Reply<'_>, Fault> {
        let mut answer = RawAnswer { refused: 0, count: 0 };
        loop {
            // SAFETY: the handle is this desk's alone, and each pointer goes with its length.
            let code = unsafe {
                rbc_feed(&mut self.raw, line.as_ptr(), line.len(), self.out.as_mut_ptr(), self.out.len(), &mut answer)
            };
            if code != ROOM {
                done(code)?;
                break;
            }
            make_room(&mut self.out, answer.count, Message::EMPTY)?;
        }
        Ok(if answer.refused == 0 { Reply::Done(&self.out[..answer.count]) } else { Reply::Refused(answer.refused) })
    }

    /// The alarms that stand, in order.
    pub fn alarms(&mut self) -> Result<Vec<Alarm>, Fault> {
        // SAFETY: the handle is this desk's alone, and the pointer goes with its room.
        list(Alarm::EMPTY, |out, room, count| unsafe { rbc_alarms(&mut self.raw, out, room, count) })
    }

    /// The trains that are enrolled: engines ascending.
    pub fn trains(&mut self) -> Result<Vec<Train>, Fault> {
        // SAFETY: as above.
        list(Train::default(), |out, room, count| unsafe { rbc_trains(&mut self.raw, out, room, count) })
    }

    /// The segments of the active stops: numbers ascending, those of one stop as they were given.
    pub fn stops(&mut self) -> Result<Vec<StopSegment>, Fault> {
        // SAFETY: as above.
        list(StopSegment::default(), |out, room, count| unsafe { rbc_stops(&mut self.raw, out, room, count) })
    }

    /// The active restrictions: numbers ascending.
    pub fn restrictions(&mut self) -> Result<Vec<Restriction>, Fault> {
        // SAFETY: as above.
        list(Restriction::default(), |out, room, count| unsafe { rbc_restrictions(&mut self.raw, out, room, count) })
    }

    /// What waits for an answer or an acknowledgement: engines ascending; of one train its stop identifiers first.
    pub fn outstanding(&mut self) -> Result<Vec<Outstanding>, Fault> {
        // SAFETY: as above.
        list(Outstanding::default(), |out, room, count| unsafe { rbc_outstanding(&mut self.raw, out, room, count) })
    }

    /// Why the desk refuses a line, in words. Empty if it would accept the line.
    pub fn explain(&mut self, line: &[u8]) -> Result<String, Fault> {
        let bytes = list(0, |out, room, count| {
            // SAFETY: as above, and the line is as long as it says.
            unsafe { rbc_explain_line(&mut self.raw, line.as_ptr(), line.len(), out, room, count) }
        })?;
        Ok(text(bytes))
    }
}

impl Drop for Desk {
    fn drop(&mut self) {
        // SAFETY: the handle is this desk's alone, and is not used again.
        unsafe { rbc_close(&mut self.raw) };
    }
}
