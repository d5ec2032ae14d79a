//! Fields of a body, all little-endian and of a fixed width, and the head of a frame.

/// Under 2 bytes, or fewer than 2 + length.
pub const TRUNCATED: u32 = 1;
/// Not the kind due.
pub const WRONG_KIND: u32 = 2;
/// Length under 2 or not the kind's, or bytes left over.
pub const BAD_LENGTH: u32 = 3;
/// A flag or an enum out of range, an absent value that is not zero, a state's own rules.
pub const BAD_VALUE: u32 = 4;
/// Output under 95 bytes, or a state under 186.
pub const NO_ROOM: u32 = 5;

/// What is written for every NaN.
pub const QUIET_NAN: u32 = 0x7FC0_0000;

/// A value that stands in a body at a fixed width. `read` and `write` are handed that many bytes.
pub trait Field: Sized {
    const WIDTH: usize;
    /// None: refusal 4.
    fn read(from: &[u8]) -> Option<Self>;
    fn write(&self, to: &mut [u8]);
}

impl Field for u8 {
    const WIDTH: usize = 1;
    #[inline]
    fn read(from: &[u8]) -> Option<Self> {
        Some(from[0])
    }
    #[inline]
    fn write(&self, to: &mut [u8]) {
        to[0] = *self;
    }
}

impl Field for u16 {
    const WIDTH: usize = 2;
    #[inline]
    fn read(from: &[u8]) -> Option<Self> {
        Some(u16::from_le_bytes([from[0], from[1]]))
    }
    #[inline]
    fn write(&self, to: &mut [u8]) {
        to[..2].copy_from_slice(&self.to_le_bytes());
    }
}

impl Field for u32 {
    const WIDTH: usize = 4;
    #[inline]
    fn read(from: &[u8]) -> Option<Self> {
        Some(u32::from_le_bytes([from[0], from[1], from[2], from[3]]))
    }
    #[inline]
    fn write(&self, to: &mut [u8]) {
        to[..4].copy_from_slice(&self.to_le_bytes());
    }
}

impl Field for u64 {
    const WIDTH: usize = 8;
    #[inline]
    fn read(from: &[u8]) -> Option<Self> {
        from.first_chunk().copied().map(u64::from_le_bytes)
    }
    #[inline]
    fn write(&self, to: &mut [u8]) {
        to[..8].copy_from_slice(&self.to_le_bytes());
    }
}

impl Field for f32 {
    const WIDTH: usize = 4;
    #[inline]
    fn read(from: &[u8]) -> Option<Self> {
        Some(f32::from_le_bytes([from[0], from[1], from[2], from[3]]))
    }
    #[inline]
    fn write(&self, to: &mut [u8]) {
        let bits = if self.is_nan() {
            QUIET_NAN
        } else {
            self.to_bits()
        };
        bits.write(to);
    }
}

impl Field for bool {
    const WIDTH: usize = 1;
    #[inline]
    fn read(from: &[u8]) -> Option<Self> {
        match from[0] {
            0 => Some(false),
            1 => Some(true),
            _ => None,
        }
    }
    #[inline]
    fn write(&self, to: &mut [u8]) {
        to[0] = *self as u8;
    }
}

/// A byte 0 or 1 and then the value; all zero bytes where it is absent.
impl<T: Field> Field for Option<T> {
    const WIDTH: usize = 1 + T::WIDTH;
    #[inline]
    fn read(from: &[u8]) -> Option<Self> {
        match from[0] {
            0 if from[1..Self::WIDTH].iter().all(|&byte| byte == 0) => Some(None),
            1 => T::read(&from[1..Self::WIDTH]).map(Some),
            _ => None,
        }
    }
    #[inline]
    fn write(&self, to: &mut [u8]) {
        match self {
            None => to[..Self::WIDTH].fill(0),
            Some(value) => {
                to[0] = 1;
                value.write(&mut to[1..Self::WIDTH]);
            }
        }
    }
}

impl<T: Field + Copy, const N: usize> Field for [T; N] {
    const WIDTH: usize = N * T::WIDTH;
    #[inline]
    fn read(from: &[u8]) -> Option<Self> {
        let mut all = [T::read(&from[..T::WIDTH])?; N];
        for (i, value) in all.iter_mut().enumerate() {
            *value = T::read(&from[i * T::WIDTH..(i + 1) * T::WIDTH])?;
        }
        Some(all)
    }
    #[inline]
    fn write(&self, to: &mut [u8]) {
        for (i, value) in self.iter().enumerate() {
            value.write(&mut to[i * T::WIDTH..(i + 1) * T::WIDTH]);
        }
    }
}

/// `Field` for a struct: its fields in the order given, which is the declared one.
macro_rules! record {
    ($name:ty { $($field:ident: $type:ty,)* }) => {
        impl $crate::bytes::Field for $name {
            const WIDTH: usize = 0 $(+ <$type as $crate::bytes::Field>::WIDTH)*;
            #[inline]
            fn read(from: &[u8]) -> Option<Self> {
                let mut at = 0;
                $(
                    let end = at + <$type as $crate::bytes::Field>::WIDTH;
                    let $field = <$type as $crate::bytes::Field>::read(&from[at..end])?;
                    at = end;
                )*
                let _ = at;
                Some(Self { $($field,)* })
            }
            #[inline]
            fn write(&self, to: &mut [u8]) {
                let mut at = 0;
                $(
                    let end = at + <$type as $crate::bytes::Field>::WIDTH;
                    <$type as $crate::bytes::Field>::write(&self.$field, &mut to[at..end]);
                    at = end;
                )*
                let _ = at;
            }
        }
    };
}
pub(crate) use record;

/// `Field` for an enum: a byte in declared order from 0.
macro_rules! numbered {
    ($name:path { $($number:literal $case:ident,)* }) => {
        impl $crate::bytes::Field for $name {
            const WIDTH: usize = 1;
            #[inline]
            fn read(from: &[u8]) -> Option<Self> {
                match from[0] {
                    $($number => Some(<$name>::$case),)*
                    _ => None,
                }
            }
            #[inline]
            fn write(&self, to: &mut [u8]) {
                to[0] = match self {
                    $(<$name>::$case => $number,)*
                };
            }
        }
    };
}
pub(crate) use numbered;

/// The body of a frame of this kind that fills the slice, in the order 1, length under 2, 2, 3. `fits`
/// says whether the body's length is the kind's.
#[inline]
pub fn body(frame: &[u8], kind: u16, fits: impl FnOnce(&[u8]) -> bool) -> Result<&[u8], u32> {
    if frame.len() < 2 {
        return Err(TRUNCATED);
    }
    let length = u16::from_le_bytes([frame[0], frame[1]]) as usize;
    if frame.len() < 2 + length {
        return Err(TRUNCATED);
    }
    if length < 2 {
        return Err(BAD_LENGTH);
    }
    if u16::from_le_bytes([frame[2], frame[3]]) != kind {
        return Err(WRONG_KIND);
    }
    if frame.len() > 2 + length || !fits(&frame[4..]) {
        return Err(BAD_LENGTH);
    }
    Ok(&frame[4..])
}

#[inline]
pub fn read_frame<T: Field>(kind: u16, frame: &[u8]) -> Result<T, u32> {
    let body = body(frame, kind, |body| body.len() == T::WIDTH)?;
    T::read(&body[..T::WIDTH]).ok_or(BAD_VALUE)
}

/// Writes a frame whose slice is known to have room.
#[inline]
pub fn put_frame<T: Field>(kind: u16, value: &T, to: &mut [u8]) {
    ((2 + T::WIDTH) as u16).write(to);
    kind.write(&mut to[2..]);
    value.write(&mut to[4..4 + T::WIDTH]);
}

/// Later bytes stay; where there is too little room nothing is written.
#[inline]
pub fn write_frame<T: Field>(kind: u16, value: &T, to: &mut [u8]) -> Result<(), u32> {
    if to.len() < 4 + T::WIDTH {
        return Err(NO_ROOM);
    }
    put_frame(kind, value, to);
    Ok(())
}
