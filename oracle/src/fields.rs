//! The fields of a file: a tag in one byte, the body's length in two, the body.

pub struct Field<'a> {
    pub offset: usize,
    pub tag: u8,
    pub length: usize,
    /// The bytes of the body that are there; all of them when `whole`.
    pub body: &'a [u8],
    pub whole: bool,
}

/// The field that begins at `offset`, which is below the file's length. A header cut short is not whole.
pub fn field_at(file: &[u8], offset: usize) -> Field<'_> {
    let rest = &file[offset..];
    if rest.len() < 3 {
        return Field { offset, tag: rest[0], length: 0, body: &[], whole: false };
    }
    let length = number(&rest[1..3]);
    let whole = rest.len() - 3 >= length;
    let body = if whole { &rest[3..3 + length] } else { &rest[3..] };
    Field { offset, tag: rest[0], length, body, whole }
}

/// The whole fields from the beginning up to the first that is not whole.
pub fn whole_fields(file: &[u8]) -> Vec<Field<'_>> {
    let mut fields = Vec::new();
    let mut offset = 0;
    while offset < file.len() {
        let field = field_at(file, offset);
        if !field.whole {
            break;
        }
        offset += 3 + field.length;
        fields.push(field);
    }
    fields
}

/// A big-endian number.
pub fn number(bytes: &[u8]) -> usize {
    bytes.iter().fold(0, |sum, &byte| sum * 256 + byte as usize)
}

/// The big-endian two-byte number at `at` in a body; bytes that are not there count as 0.
pub fn two(body: &[u8], at: usize) -> i64 {
    let byte = |index: usize| *body.get(index).unwrap_or(&0) as i64;
    byte(at) * 256 + byte(at + 1)
}

pub fn put_two(out: &mut Vec<u8>, value: i64) {
    out.extend_from_slice(&(value as u16).to_be_bytes());
}

pub fn put_field(out: &mut Vec<u8>, tag: u8, body: &[u8]) {
    out.push(tag);
    put_two(out, body.len() as i64);
    out.extend_from_slice(body);
}
