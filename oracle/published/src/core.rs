//! Stand-in for the parser's core. Document 01 leaves parsing out, so the
//! parser's text only has to compile: a call of it stops the program.

pub enum FormatError {
    UnknownTag {
        enum_name: &'static str,
        tag: u32,
        offset: usize,
    },
}

/// Four letters as a number; the file has them in this order, and numbers are
/// little-endian.
pub const fn tchar_code32(letters: &[u8; 4]) -> u32 {
    u32::from_le_bytes(*letters)
}

pub trait ReadWriteable: Sized {
    fn parse(cursor: &mut Cursor) -> Result<Self, FormatError>;
    fn write(&self, writer: &mut Writer);
}

#[derive(Clone, Copy)]
pub struct Placeholder32(pub usize);

pub struct Cursor {
    pub pos: usize,
    pub section_start: Option<usize>,
    pub last_was_pane: bool,
}

pub struct Writer {
    pub section_start: Option<usize>,
}

macro_rules! left_out {
    ($($name:ident ( $($arg:ty),* ) $(-> $out:ty)?;)*) => {
        $(pub fn $name(&self $(, _: $arg)*) $(-> $out)? {
            unimplemented!(concat!(stringify!($name), ": parsing and writing are left out"))
        })*
    };
}

#[rustfmt::skip]
impl Cursor {
    left_out! {
        read_u8() -> Result<u8, FormatError>;
        read_u16() -> Result<u16, FormatError>;
        read_u32() -> Result<u32, FormatError>;
        read_i32() -> Result<i32, FormatError>;
        read_f32() -> Result<f32, FormatError>;
        read_string(usize) -> Result<String, FormatError>;
        read_fixed_string(usize) -> Result<String, FormatError>;
        read_null_terminated_string() -> Result<String, FormatError>;
        seek(usize) -> Result<(), FormatError>;
        seek_relative(isize);
    }

    pub fn ctx_section_start<T>(&self) -> Result<usize, FormatError> {
        unimplemented!("parsing is left out")
    }
}

#[rustfmt::skip]
impl Writer {
    left_out! {
        write_u8(u8);
        write_u16(u16);
        write_u32(u32);
        write_i32(i32);
        write_f32(f32);
        write_fixed_string(&str, usize);
        write_null_terminated_string(&str);
        write_placeholder_u32() -> Placeholder32;
        patch_u32(Placeholder32, u32);
        align(usize);
        mark(&str);
        pos() -> usize;
    }

    pub fn ctx_section_start<T>(&self) -> usize {
        unimplemented!("writing is left out")
    }
}
