//! ERP2 telegrams.
use crate::raw;
use crate::refusal::{done, Refusal};

/// The extended header of an ERP2 telegram.
///
/// ```
/// let extension = mooringeye::Extension { hops: 1, optional: vec![0xAB] };
/// assert_eq!(extension.optional.len(), 1);
/// ```
#[derive(Clone, Debug, PartialEq, Eq, Hash)]
pub struct Extension {
    /// Repeater count, 0 to 15.
    pub hops: u8,
    /// Optional data, at most 15 bytes, whose length the extended header announces.
    pub optional: Vec<u8>,
}

/// An ERP2 telegram: a short form of 1 to 6 bytes, or a long form with a header.
///
/// ```
/// use mooringeye::Erp2;
///
/// # fn main() -> Result<(), mooringeye::Refusal> {
/// let t = Erp2::read(&[5, 1, 2, 3, 4, 0xAA])?;
/// assert_eq!(t, Erp2::Short { length: 5, originator: 0x01020304, data: vec![0xAA] });
/// assert_eq!(t.build()?, [5, 1, 2, 3, 4, 0xAA]);
/// # Ok(())
/// # }
/// ```
#[derive(Clone, Debug, PartialEq, Eq, Hash)]
pub enum Erp2 {
    /// Length 1 to 6: no header and no CRC. The Originator-ID takes 1, 1, 2, 3, 4 or 4 bytes, by Length.
    Short {
        /// Length, 1 to 6.
        length: u8,
        /// The Originator-ID.
        originator: u64,
        /// What is left of Length.
        data: Vec<u8>,
    },
    /// Length 7 to 255.
    Long {
        /// Address control: 0 for an ID of 24 bits, 1 of 32, 2 of 32 with a destination, 3 of 48.
        control: u8,
        /// Telegram type, 0 to 15; 15 says that an extended type follows.
        kind: u8,
        /// The extended header, where there is one.
        extension: Option<Extension>,
        /// The extended telegram type, present exactly if `kind` is 15.
        subtype: Option<u8>,
        /// The Originator-ID.
        originator: u64,
        /// The Destination-ID, present exactly if `control` is 2.
        destination: Option<u32>,
        /// Data, which may be empty.
        data: Vec<u8>,
    },
}

// Where data and optional data are among the fields.
const DATA: usize = 11;
const OPTIONAL: usize = DATA + 250;

impl Erp2 {
    /// Reads a length byte and Data_PL. Refused: [`Refusal::Length`], and of a long form [`Refusal::Crc`], [`Refusal::ReservedAddress`],
    /// [`Refusal::Misfit`].
    pub fn read(bytes: &[u8]) -> Result<Erp2, Refusal> {
        let (mut fields, mut originator, mut destination) = ([0; raw::ERP2], 0, 0);
        done(raw::erp2_read(bytes, &mut fields, &mut originator, &mut destination))?;
        let data = fields[DATA..DATA + usize::from(fields[10])].to_vec();
        if fields[0] != 0 {
            return Ok(Erp2::Short { length: fields[0], originator, data });
        }
        let optional = fields[OPTIONAL..OPTIONAL + usize::from(fields[6])].to_vec();
        Ok(Erp2::Long {
            control: fields[1],
            kind: fields[3],
            extension: (fields[4] != 0).then_some(Extension { hops: fields[5], optional }),
            subtype: (fields[7] != 0).then_some(fields[8]),
            originator,
            destination: (fields[9] != 0).then_some(destination),
            data,
        })
    }

    /// The length byte and Data_PL. Refused: [`Refusal::Argument`] for a value that its bits can't hold or a field against the header,
    /// [`Refusal::ReservedAddress`], [`Refusal::Misfit`] for fields that do not fit the length. For data of more than 250 bytes the answer is
    /// [`Refusal::Misfit`] before other values are tested; only a Length of 0 and optional data of more than 15 bytes are refused before, with
    /// [`Refusal::Argument`].
    pub fn build(&self) -> Result<Vec<u8>, Refusal> {
        let (fields, originator, destination) = self.parts()?;
        let (mut out, mut length) = (vec![0; 256], 0);
        done(raw::erp2_build(&fields, originator, destination, &mut out, &mut length))?;
        out.truncate(length);
        Ok(out)
    }

    fn parts(&self) -> Result<([u8; raw::ERP2], u64, u32), Refusal> {
        let mut fields = [0; raw::ERP2];
        match self {
            Erp2::Short { length: 0, .. } => Err(Refusal::Argument), // 0 there names a long form
            Erp2::Short { length, originator, data } => {
                fields[0] = *length;
                put(&mut fields, DATA, 10, data, 250)?;
                Ok((fields, *originator, 0))
            }
            Erp2::Long { control, kind, extension, subtype, originator, destination, data } => {
                fields[1] = *control;
                fields[2] = u8::from(extension.is_some());
                fields[3] = *kind;
                fields[4] = fields[2];
                if let Some(e) = extension {
                    fields[5] = e.hops;
                    if put(&mut fields, OPTIONAL, 6, &e.optional, 15).is_err() {
                        return Err(Refusal::Argument); // four bits do not hold the length
                    }
                }
                fields[7] = u8::from(subtype.is_some());
                fields[8] = subtype.unwrap_or(0);
                fields[9] = u8::from(destination.is_some());
                put(&mut fields, DATA, 10, data, 250)?;
                Ok((fields, *originator, destination.unwrap_or(0)))
            }
        }
    }
}

fn put(fields: &mut [u8; raw::ERP2], at: usize, length: usize, data: &[u8], most: usize) -> Result<(), Refusal> {
    if data.len() > most {
        return Err(Refusal::Misfit);
    }
    fields[at..at + data.len()].copy_from_slice(data);
    fields[length] = data.len() as u8;
    Ok(())
}

#[cfg(test)]
mod tests {
    use super::*;

    fn long(data: usize, optional: usize) -> Erp2 {
        let extension = Some(Extension { hops: 15, optional: vec![3; optional] });
        Erp2::Long { control: 2, kind: 15, extension, subtype: Some(7), originator: 9, destination: Some(8), data: vec![1; data] }
    }

    #[test]
    fn back_and_forth() {
        for (data, optional) in [(0, 0), (1, 15), (243, 0), (228, 15)] {
            let bytes = long(data, optional).build().unwrap();
            assert_eq!(Erp2::read(&bytes), Ok(long(data, optional)));
        }
    }

    #[test]
    fn refusals() {
        assert_eq!(long(244, 0).build(), Err(Refusal::Misfit));
        assert_eq!(long(251, 0).build(), Err(Refusal::Misfit));
        assert_eq!(long(0, 16).build(), Err(Refusal::Argument));
        assert_eq!(Erp2::Short { length: 0, originator: 0, data: vec![] }.build(), Err(Refusal::Argument));
        assert_eq!(Erp2::Short { length: 7, originator: 0, data: vec![] }.build(), Err(Refusal::Argument));
        assert_eq!(Erp2::Short { length: 2, originator: 256, data: vec![0] }.build(), Err(Refusal::Argument));
        assert_eq!(Erp2::Short { length: 2, originator: 1, data: vec![] }.build(), Err(Refusal::Misfit));
        assert_eq!(Erp2::read(&[]), Err(Refusal::Length));
        assert_eq!(Erp2::read(&[0; 300]), Err(Refusal::Length));
    }
}
