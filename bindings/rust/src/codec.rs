//! The codec, over libertms: one message at a time. `ertms.h` says what each field means, its unit and its range;
//! `examples/message.rs` is a whole program.

use std::fmt;

/// The greatest number of packets of a message 24.
pub const PACKETS: usize = 100;

/// Room for the bytes of a message to a train.
const BYTES: usize = 1024;

/// Room for the bytes of a message from a train.
const FROM_TRAIN_BYTES: usize = 28;

/// Room for the words on a wrong word.
const WORDS: usize = 128;

/// A packet of message 24. A variable that its kind does not have is 0.
#[repr(C)]
#[derive(Clone, Copy, Debug, Default, PartialEq, Eq)]
pub struct Packet {
    pub kind: u8,
    pub id: u8,
    pub scale: u8,
    pub dir: u8,
    pub front: u8,
    pub speed: u8,
    pub start: u16,
    pub length: u16,
}

/// A message to a train. A variable that its kind does not have is 0.
#[repr(C)]
#[derive(Clone, Copy, Debug, PartialEq, Eq)]
pub struct ToTrain {
    pub kind: u8,
    pub ack: u8,
    pub id: u8,
    pub scale: u8,
    pub dir: u8,
    pub reference: i16,
    pub distance: u16,
    pub stamp: u32,
    pub lrbg: u32,
    pub count: u32,
    pub packets: [Packet; PACKETS],
}

impl Default for ToTrain {
    fn default() -> ToTrain {
        let packets = [Packet::default(); PACKETS];
        ToTrain {
            kind: 0,
            ack: 0,
            id: 0,
            scale: 0,
            dir: 0,
            reference: 0,
            distance: 0,
            stamp: 0,
            lrbg: 0,
            count: 0,
            packets,
        }
    }
}

/// A message from a train. A variable that its kind does not have is 0.
#[repr(C)]
#[derive(Clone, Copy, Debug, Default, PartialEq, Eq)]
pub struct FromTrain {
    pub kind: u8,
    pub id: u8,
    pub answer: u8,
    pub packet: u8,
    pub scale: u8,
    pub dir: u8,
    pub side: u8,
    pub distance: u16,
    pub over: u16,
    pub under: u16,
    pub stamp: u32,
    pub engine: u32,
    pub acked: u32,
    pub lrbg: u32,
    pub previous: u32,
}

/// What came of encoding a text.
#[repr(C)]
#[derive(Default)]
struct Encoded {
    count: usize,
    word: u64,
    words: usize,
}

// The library is linked by these sizes.
const _: () = assert!(std::mem::size_of::<Packet>() == 10);
const _: () = assert!(std::mem::size_of::<ToTrain>() == 1024);
const _: () = assert!(std::mem::size_of::<FromTrain>() == 36);
const _: () = assert!(std::mem::size_of::<Encoded>() == 24);

extern "C" {
    fn ertms_3_read_to_train(bytes: *const u8, length: usize, fields: *mut ToTrain) -> u32;
    fn ertms_3_write_to_train(fields: *const ToTrain, bytes: *mut u8) -> u32;
    fn ertms_read_from_train(bytes: *const u8, length: usize, fields: *mut FromTrain) -> u32;
    fn ertms_write_from_train(fields: *const FromTrain, out: *mut u8, room: usize, count: *mut usize) -> u32;
    fn ertms_encode(
        text: *const u8,
        length: usize,
        out: *mut u8,
        room: usize,
        words: *mut u8,
        room_of_words: usize,
        encoded: *mut Encoded,
    ) -> u32;
}

/// Why bytes are refused, or `Memory`, which is no refusal.
#[derive(Clone, Copy, Debug, PartialEq, Eq)]
pub enum Refused {
    Length,
    Message,
    Packet,
    Field,
    Memory,
}

impl fmt::Display for Refused {
    fn fmt(&self, f: &mut fmt::Formatter<'_>) -> fmt::Result {
        fmt::Debug::fmt(self, f)
    }
}

impl std::error::Error for Refused {}

fn read<T: Default>(call: impl FnOnce(&mut T) -> u32) -> Result<T, Refused> {
    let mut fields = T::default();
    match call(&mut fields) {
        0 => Ok(fields),
        1 => Err(Refused::Length),
        2 => Err(Refused::Message),
        3 => Err(Refused::Packet),
        4 => Err(Refused::Field),
        _ => Err(Refused::Memory),
    }
}

/// Decodes the bytes of one message to a train.
pub fn read_to_train(bytes: &[u8]) -> Result<ToTrain, Refused> {
    // SAFETY: the pointer goes with its length, and the fields are of ertms.h.
    read(|fields| unsafe { ertms_3_read_to_train(bytes.as_ptr(), bytes.len(), fields) })
}

/// Decodes the bytes of one message from a train.
pub fn read_from_train(bytes: &[u8]) -> Result<FromTrain, Refused> {
    // SAFETY: as above.
    read(|fields| unsafe { ertms_read_from_train(bytes.as_ptr(), bytes.len(), fields) })
}

/// Encodes one message to a train. `None` where no message has these fields.
pub fn write_to_train(fields: &ToTrain) -> Option<Vec<u8>> {
    let mut bytes = vec![0; BYTES];
    // SAFETY: there is room for BYTES bytes.
    let length = unsafe { ertms_3_write_to_train(fields, bytes.as_mut_ptr()) };
    bytes.truncate(length as usize);
    if length > 0 {
        Some(bytes)
    } else {
        None
    }
}

/// Encodes one message from a train. `None` where no message has these fields.
pub fn write_from_train(fields: &FromTrain) -> Option<Vec<u8>> {
    let mut bytes = vec![0; FROM_TRAIN_BYTES];
    let mut count = 0;
    // SAFETY: the pointer goes with its room.
    let code = unsafe { ertms_write_from_train(fields, bytes.as_mut_ptr(), bytes.len(), &mut count) };
    bytes.truncate(count);
    if code == 0 {
        Some(bytes)
    } else {
        None
    }
}

/// Why a text is not encoded.
#[derive(Clone, Debug, PartialEq, Eq)]
pub enum NotEncoded {
    /// It is of no message. The first word has number 1; `words` say what can stand at the first wrong one.
    WrongWord { number: u64, words: String },
    Memory,
}

impl fmt::Display for NotEncoded {
    fn fmt(&self, f: &mut fmt::Formatter<'_>) -> fmt::Result {
        match self {
            NotEncoded::WrongWord { words, .. } => f.write_str(words),
            NotEncoded::Memory => f.write_str("out of memory"),
        }
    }
}

impl std::error::Error for NotEncoded {}

/// Encodes the text of one message, to a train or from one.
pub fn encode(text: &str) -> Result<Vec<u8>, NotEncoded> {
    let mut bytes = vec![0; BYTES];
    let mut words = [0; WORDS];
    let mut encoded = Encoded::default();
    // SAFETY: each pointer goes with its length or room.
    let code = unsafe {
        ertms_encode(
            text.as_ptr(),
            text.len(),
            bytes.as_mut_ptr(),
            bytes.len(),
            words.as_mut_ptr(),
            words.len(),
            &mut encoded,
        )
    };
    match code {
        0 => {
            bytes.truncate(encoded.count);
            Ok(bytes)
        }
        8 => Err(NotEncoded::WrongWord {
            number: encoded.word,
            words: String::from_utf8_lossy(&words[..encoded.words.min(WORDS)]).into_owned(),
        }),
        _ => Err(NotEncoded::Memory),
    }
}
