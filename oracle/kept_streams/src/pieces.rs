//! A stream as pieces, each of them some bytes that stand there a number of times.

use frames::TELEMETRY_FRAME;
use words::packed;

#[derive(Clone)]
pub struct Piece {
    pub times: u32,
    pub bytes: Vec<u8>,
}

pub type Stream = Vec<Piece>;

pub fn frame(bytes: &[u8]) -> Piece {
    Piece {
        times: 1,
        bytes: bytes.to_vec(),
    }
}

/// A telemetry in which everything is absent.
pub fn absent() -> Vec<u8> {
    let mut frame = vec![0; TELEMETRY_FRAME];
    frame[..4].copy_from_slice(&[104, 0, 3, 0]);
    frame
}

/// The head of a frame of 65,537 bytes, and this many zeros behind it.
pub fn longest(kind: u16, zeros: u32) -> Stream {
    let [low, high] = kind.to_le_bytes();
    let zeros = Piece {
        times: zeros,
        bytes: vec![0],
    };
    vec![frame(&[0xFF, 0xFF, low, high]), zeros]
}

pub fn bytes(stream: &Stream) -> Vec<u8> {
    let pieces = stream.iter();
    pieces
        .flat_map(|piece| piece.bytes.repeat(piece.times as usize))
        .collect()
}

/// For each piece how often it stands there, how many bytes it has, and these.
pub fn words(stream: &Stream) -> Vec<u32> {
    let mut all = Vec::new();
    for piece in stream {
        all.extend([piece.times, piece.bytes.len() as u32]);
        all.extend(packed(&piece.bytes));
    }
    all
}
