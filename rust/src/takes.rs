//! Two recordings of one take: what the main and the backup recorder's files have apart.
//!
//! ARRI's frames of both files meet by their numbers. Floats are compared by their bits; nothing and infinity are themselves.
//! Exchanging the files only exchanges the sides.
//!
//! ```
//! use brinethimble::{Apart, Difference, Side, Takes};
//!
//! let picture = *b"\x06\x0e\x2b\x34\x02\x43\x01\x01\x0d\x01\x03\x01\x04\x01\x03\x01";
//! let main = [&picture[..], &[0], &picture, &[0]].concat();
//! let backup = [&picture[..], &[1, 9]].concat();
//! let report: Vec<_> = Takes::new(&main, main.len(), &backup, backup.len())?.collect();
//! assert_eq!(report, [Difference { number: 1, apart: Apart::Only(Side::Main) }]);
//! # Ok::<(), brinethimble::Refusal>(())
//! ```

use core::iter::FusedIterator;

use crate::boundary::{self, TakesStep};
use crate::record::Refusal;
use crate::values::FrameValues;

/// A recorder.
#[derive(Clone, Copy, PartialEq, Eq, Debug)]
pub enum Side {
    /// The main recorder: the first file.
    Main,
    /// The backup recorder: the second file.
    Backup,
}

/// A field of a frame's values, in the order of the report.
#[derive(Clone, Copy, PartialEq, Eq, PartialOrd, Ord, Debug)]
#[allow(missing_docs)]
pub enum Field {
    FocalLength,
    FocusDistance,
    TStop,
    ExposureTime,
    ShutterAngle,
    TiltRoll,
    ExposureIndex,
    WhiteBalance,
    NdDensity,
    EffectiveFocalLength,
    WhiteBalanceFactors,
    FocusLds,
    FocusMotor,
    ZoomLds,
    ZoomMotor,
    IrisLds,
    IrisMotor,
    Tint,
    SensorRate,
}

impl Field {
    /// All fields, in order, with their names.
    const ALL: [(Field, &'static str); 19] = [
        (Field::FocalLength, "focal_length"),
        (Field::FocusDistance, "focus_distance"),
        (Field::TStop, "t_stop"),
        (Field::ExposureTime, "exposure_time"),
        (Field::ShutterAngle, "shutter_angle"),
        (Field::TiltRoll, "tilt_roll"),
        (Field::ExposureIndex, "exposure_index"),
        (Field::WhiteBalance, "white_balance"),
        (Field::NdDensity, "nd_density"),
        (Field::EffectiveFocalLength, "effective_focal_length"),
        (Field::WhiteBalanceFactors, "white_balance_factors"),
        (Field::FocusLds, "focus_lds"),
        (Field::FocusMotor, "focus_motor"),
        (Field::ZoomLds, "zoom_lds"),
        (Field::ZoomMotor, "zoom_motor"),
        (Field::IrisLds, "iris_lds"),
        (Field::IrisMotor, "iris_motor"),
        (Field::Tint, "tint"),
        (Field::SensorRate, "sensor_rate"),
    ];

    /// Its name, as the C header has it, in lowercase.
    ///
    /// ```
    /// assert_eq!(brinethimble::Field::NdDensity.name(), "nd_density");
    /// ```
    pub fn name(self) -> &'static str {
        Self::ALL[self as usize].1
    }
}

/// Fields of the values that both frames have, with these values.
#[derive(Clone, Copy, PartialEq, Debug)]
pub struct Fields {
    /// Bit k is field k.
    bits: u32,
    /// The main recorder's values.
    pub main: FrameValues,
    /// The backup recorder's.
    pub backup: FrameValues,
}

impl Fields {
    /// The fields that differ, in order: at least one.
    ///
    /// ```
    /// use brinethimble::{Apart, Field, Takes};
    ///
    /// // an ALEXA 35's element with one item, the T-stop
    /// let frame = |t_stop: u8| {
    ///     let data = b"\x06\x0e\x2b\x34\x01\x02\x01\x01\x0d\x01\x03\x01\x17\x01\x0f\x00\x26";
    ///     let set = b"\x06\x0e\x2b\x34\x02\x01\x01\x01\x0e\x17\x01\x02\x0d\x00\x00\x00\x15";
    ///     let item = b"\x06\x0e\x2b\x34\x01\x01\x01\x0e\x0e\x17\x01\x02\x0d\x03\x00\x00\x04\x00\x00\x00";
    ///     [&data[..], set, item, &[t_stop]].concat()
    /// };
    /// let (main, backup) = (frame(5), frame(6));
    /// let difference = Takes::new(&main, main.len(), &backup, backup.len())?.next().unwrap();
    /// let Apart::Fields(fields) = difference.apart else { panic!("{difference:?}") };
    /// assert_eq!(fields.iter().collect::<Vec<_>>(), [Field::TStop]);
    /// assert!(fields.main.t_stop != fields.backup.t_stop);
    /// # Ok::<(), brinethimble::Refusal>(())
    /// ```
    pub fn iter(&self) -> impl Iterator<Item = Field> + use<> {
        let bits = self.bits;
        Field::ALL.into_iter().map(|(field, _)| field).filter(move |field| bits >> *field as u32 & 1 == 1)
    }
}

/// What is apart at a number.
#[derive(Clone, Copy, PartialEq, Debug)]
pub enum Apart {
    /// Fields of the values that both have.
    Fields(Fields),
    /// This one has values, the other has none; neither is over-long.
    Values(Side),
    /// This one is over-long, the other is not.
    Overlong(Side),
    /// Only this one has a frame of this number.
    Only(Side),
}

/// A difference: a frame's number, and what is apart there.
#[derive(Clone, Copy, PartialEq, Debug)]
pub struct Difference {
    /// The frame's number, from 0.
    pub number: u64,
    /// What is apart.
    pub apart: Apart,
}

/// Where both walks stand, and the number of the next frame. The first cursor is the default one.
#[derive(Clone, Copy, PartialEq, Eq, Default, Debug)]
pub struct TakesCursor {
    /// Where the main file's walk stands.
    pub main: usize,
    /// Where the backup file's does.
    pub backup: usize,
    /// The next frame's number.
    pub number: u64,
}

/// The differences of two recordings, in order of number. There is none exactly where both have the same values and marks.
#[derive(Clone, Debug)]
pub struct Takes<'a> {
    main: (&'a [u8], usize),
    backup: (&'a [u8], usize),
    cursor: TakesCursor,
}

impl<'a> Takes<'a> {
    /// The differences of the main and the backup file, each up to its end. An end past its buffer is refused, the first file's
    /// before the second's.
    ///
    /// ```
    /// use brinethimble::{Refusal, Takes};
    ///
    /// assert_eq!(Takes::new(&[], 0, &[], 0)?.count(), 0);
    /// assert_eq!(Takes::new(&[], 0, &[], 1).unwrap_err(), Refusal::EndPastBuffer);
    /// # Ok::<(), Refusal>(())
    /// ```
    pub fn new(main: &'a [u8], main_end: usize, backup: &'a [u8], backup_end: usize) -> Result<Self, Refusal> {
        Takes::from_cursor(main, main_end, backup, backup_end, TakesCursor::default())
    }

    /// The same from a cursor.
    ///
    /// ```
    /// use brinethimble::{Takes, TakesCursor};
    ///
    /// let picture = *b"\x06\x0e\x2b\x34\x02\x43\x01\x01\x0d\x01\x03\x01\x04\x01\x03\x01";
    /// let main = [&picture[..], &[0]].concat();
    /// let mut report = Takes::from_cursor(&main, 17, &[], 0, TakesCursor { main: 0, backup: 0, number: 5 })?;
    /// assert_eq!(report.next().map(|difference| difference.number), Some(5));
    /// assert_eq!(report.cursor(), TakesCursor { main: 17, backup: 0, number: 6 });
    /// # Ok::<(), brinethimble::Refusal>(())
    /// ```
    pub fn from_cursor(main: &'a [u8], main_end: usize, backup: &'a [u8], backup_end: usize, cursor: TakesCursor) -> Result<Self, Refusal> {
        let takes = Takes { main: (main, main_end), backup: (backup, backup_end), cursor };
        takes.step(TakesCursor { main: main_end, backup: backup_end, number: 0 })?;
        Ok(takes)
    }

    /// Where both walks are.
    ///
    /// ```
    /// use brinethimble::{Takes, TakesCursor};
    ///
    /// assert_eq!(Takes::new(&[], 0, &[], 0)?.cursor(), TakesCursor::default());
    /// # Ok::<(), brinethimble::Refusal>(())
    /// ```
    pub fn cursor(&self) -> TakesCursor {
        self.cursor
    }

    /// A step from a cursor.
    fn step(&self, cursor: TakesCursor) -> Result<TakesStep, Refusal> {
        boundary::takes_step(self.main, self.backup, cursor)
    }
}

impl Iterator for Takes<'_> {
    type Item = Difference;

    fn next(&mut self) -> Option<Difference> {
        let step = self.step(self.cursor).ok()?;
        let [found, number, what, side, bits, main, backup, next] = step.out;
        self.cursor = TakesCursor { main: main as usize, backup: backup as usize, number: next };
        let side = if side == 1 { Side::Main } else { Side::Backup };
        let apart = match what {
            1 => Apart::Fields(Fields {
                bits: bits as u32,
                main: FrameValues::written(&step.main),
                backup: FrameValues::written(&step.backup),
            }),
            2 => Apart::Values(side),
            3 => Apart::Overlong(side),
            _ => Apart::Only(side),
        };
        (found == 1).then_some(Difference { number, apart })
    }
}

impl FusedIterator for Takes<'_> {}

#[cfg(test)]
mod tests {
    use super::*;

    const PICTURE: [u8; 16] = *b"\x06\x0e\x2b\x34\x02\x43\x01\x01\x0d\x01\x03\x01\x04\x01\x03\x01";
    const DATA: [u8; 16] = *b"\x06\x0e\x2b\x34\x01\x02\x01\x01\x0d\x01\x03\x01\x17\x01\x0f\x00";

    /// The report of two whole files.
    fn report(main: &[u8], backup: &[u8]) -> Vec<Difference> {
        Takes::new(main, main.len(), backup, backup.len()).unwrap().collect()
    }

    #[test]
    fn every_field_has_its_place() {
        for (k, (field, _)) in Field::ALL.into_iter().enumerate() {
            assert_eq!(field as usize, k);
        }
    }

    #[test]
    fn marks_values_and_frames_on_one_side() {
        let none = [&PICTURE[..], &[1, 0]].concat();
        let values = [&DATA[..], &[0]].concat();
        let long = [&DATA[..], &[0x82, 0x20, 0x01], &[0; 8193]].concat();
        let longer = [&DATA[..], &[0x82, 0x20, 0x02], &[0; 8194]].concat();
        for (main, backup, apart) in [
            (&values, &none, Apart::Values(Side::Main)),
            (&none, &values, Apart::Values(Side::Backup)),
            (&long, &none, Apart::Overlong(Side::Main)),
            (&values, &long, Apart::Overlong(Side::Backup)),
            (&vec![], &values, Apart::Only(Side::Backup)),
        ] {
            assert_eq!(report(main, backup), [Difference { number: 0, apart }]);
        }
        for (main, backup) in [(&long, &longer), (&none, &none), (&values, &values), (&vec![], &vec![])] {
            assert_eq!(report(main, backup), []);
        }
    }

    #[test]
    fn the_ends_are_looked_at_before_anything_else() {
        let file = [&PICTURE[..], &[0]].concat();
        for (main_end, backup_end) in [(18, 17), (17, 18), (18, 18)] {
            assert_eq!(Takes::new(&file, main_end, &file, backup_end).unwrap_err(), Refusal::EndPastBuffer);
        }
        assert_eq!(Takes::new(&file, 17, &file, 16).unwrap().count(), 1);
    }
}
