//! Tables inside values: the header part, the primer, ARRI's block, ST 436 elements, descriptors.
//!
//! Counts that a table states are not trusted: what counts is the bytes that are there.
//!
//! ```
//! use brinethimble::Primer;
//!
//! let label = *b"\x06\x0e\x2b\x34\x01\x01\x01\x0d\x0f\x01\x04\x01\x01\x01\x01\x00";
//! let pack = [&[0xff, 0xff, 0xff, 0xff, 0, 0, 0, 18, 0x80, 0x02][..], &label].concat();
//! assert_eq!(Primer(&pack).get(0x8002), Some(&label));
//! assert_eq!(Primer(&pack).get(0x8003), None);
//! ```

use core::iter::FusedIterator;

use crate::boundary;
use crate::places::*;
use crate::record::{Refusal, part};

/// The header part of a file whose first bytes are `buffer`, as far as these have it.
///
/// ```
/// let mut file = b"\x06\x0e\x2b\x34\x02\x05\x01\x01\x0d\x01\x02\x01\x01\x02\x04\x00\x28".to_vec();
/// file.resize(17 + 40, 0);
/// file[17 + 39] = 3; // its bytes are counted at 32..40 of the pack
/// file.extend(b"header");
/// assert_eq!(brinethimble::header_partition_metadata(&file), Some(&b"hea"[..]));
/// assert_eq!(brinethimble::header_partition_metadata(b"no MXF"), None);
/// ```
pub fn header_partition_metadata(buffer: &[u8]) -> Option<&[u8]> {
    let [found, place, length] = boundary::header(buffer);
    (found == 1).then(|| part(buffer, place, length))
}

/// The value of a primer pack: the labels of a file's local tags.
#[derive(Clone, Copy, Debug)]
pub struct Primer<'a>(
    /// The pack's value.
    pub &'a [u8],
);

impl<'a> Primer<'a> {
    /// The label of a local tag. The last of equal tags is the answer; an entry that is cut is none.
    ///
    /// ```
    /// let mut pack = [&[0, 0, 0, 9, 0, 0, 0, 18][..], &[0x80, 1], &[7; 16], &[0x80, 1], &[8; 16]].concat();
    /// assert_eq!(brinethimble::Primer(&pack).get(0x8001), Some(&[8; 16]));
    /// pack.extend([0x80, 1]);
    /// pack.extend([9; 15]);
    /// assert_eq!(brinethimble::Primer(&pack).get(0x8001), Some(&[8; 16]));
    /// pack.push(9);
    /// assert_eq!(brinethimble::Primer(&pack).get(0x8001), Some(&[9; 16]));
    /// ```
    ///
    /// It searches the pack, as long as that is: for one look-up. For more, and always where every item of a set is looked up, use
    /// [`Primer::tabled`].
    pub fn get(self, tag: u16) -> Option<&'a [u8; 16]> {
        self.label(boundary::primer(self.0, tag))
    }

    /// The same primer with a table over it, filled in one pass: a look-up then takes a time that does not depend on the pack. What
    /// was in the table before does not count, so that one serves any number of primers, one after the other.
    ///
    /// ```
    /// use brinethimble::{Primer, TAGS};
    ///
    /// let mut table = Box::new([7; TAGS]);
    /// let pack = [&[0, 0, 0, 0, 0, 0, 0, 18][..], &[0x80, 1], &[7; 16], &[0x80, 1], &[8; 16]].concat();
    /// let primer = Primer(&pack).tabled(&mut table);
    /// assert_eq!(primer.get(0x8001), Some(&[8; 16]));
    /// assert_eq!(primer.get(0x8002), None);
    /// assert_eq!(Primer(&[]).tabled(&mut table).get(0x8001), None);
    /// ```
    pub fn tabled<'t>(self, table: &'t mut [u64; TAGS]) -> TabledPrimer<'a, 't> {
        boundary::primer_table(self.0, table);
        TabledPrimer { primer: self, table }
    }

    /// The label that a look-up found.
    fn label(self, [found, place]: [u64; 2]) -> Option<&'a [u8; 16]> {
        (found == 1).then(|| part(self.0, place, 16).try_into().expect("16 bytes of label"))
    }
}

/// How many tags of two bytes there are: the places of [`Primer::tabled`]'s table.
pub const TAGS: usize = 65536;

/// A primer with a table over it: [`Primer::tabled`].
#[derive(Clone, Copy, Debug)]
pub struct TabledPrimer<'a, 't> {
    primer: Primer<'a>,
    table: &'t [u64; TAGS],
}

impl<'a> TabledPrimer<'a, '_> {
    /// The label of a local tag: what [`Primer::get`] answers.
    pub fn get(self, tag: u16) -> Option<&'a [u8; 16]> {
        self.primer.label(boundary::primer_in(self.primer.0, self.table, tag))
    }
}

/// ARRI's 256 bytes in the value of a picture metadata element.
///
/// ```
/// let set = b"\x06\x0e\x2b\x34\x02\x53\x01\x01\x0c\x02\x01\x01\x01\x01\x00\x00";
/// let block = [5; 256];
/// let run = [&set[..], &[0x82, 1, 4, 0x82, 0, 1, 0], &block].concat();
/// let element = [&[0x88, 1, 23][..], &run].concat();
/// assert_eq!(brinethimble::dynamic_metadata(&element), Some(&block));
/// assert_eq!(brinethimble::dynamic_metadata(&element[..200]), None);
/// ```
pub fn dynamic_metadata(element: &[u8]) -> Option<&[u8; 256]> {
    let [found, place] = boundary::arri_block(element);
    (found == 1).then(|| part(element, place, 256).try_into().expect("256 bytes"))
}

/// Puts the payload of an ST 436 element at the start of lent room, and answers its length. A payload is never longer than its
/// element.
///
/// ```
/// use brinethimble::{Refusal, payload_into};
///
/// let line = b"\0\x09\0\0\0\x06\0\0\0\x06\0\0\0\x01\x43\x05\x00\x00ab";
/// let element = [&[0, 1][..], line].concat();
/// let mut room = *b"----";
/// assert_eq!(payload_into(&element, &mut room), Ok(2));
/// assert_eq!(&room, b"ab--");
/// assert_eq!(payload_into(&element, &mut room[..1]), Err(Refusal::NoRoom { needed: 2 }));
/// ```
pub fn payload_into(element: &[u8], room: &mut [u8]) -> Result<usize, Refusal> {
    boundary::payload(element, room)
}

/// The payloads of an ST 436 element's lines.
#[derive(Clone, Debug)]
pub struct Lines<'a> {
    element: &'a [u8],
    at: usize,
    left: usize,
}

/// The payloads of an ST 436 element's lines, parts of it, up to the first bad line. That of a line of another kind is empty.
///
/// ```
/// let line = b"\0\x09\0\0\0\x06\0\0\0\x06\0\0\0\x01\x43\x05\x00\x00ab";
/// let element = [&[0, 3][..], line, line].concat();
/// assert_eq!(brinethimble::lines(&element).collect::<Vec<_>>(), [b"ab", b"ab"]);
/// ```
pub fn lines(element: &[u8]) -> Lines<'_> {
    let left = element.first_chunk().map_or(0, |count| u16::from_be_bytes(*count));
    Lines { element, at: 2, left: left.into() }
}

impl<'a> Iterator for Lines<'a> {
    type Item = &'a [u8];

    fn next(&mut self) -> Option<&'a [u8]> {
        let [found, place, length, at, left] = boundary::line(self.element, self.at, self.left);
        (self.at, self.left) = (at as usize, left as usize);
        (found == 1).then(|| part(self.element, place, length))
    }
}

impl FusedIterator for Lines<'_> {}

/// A part of the picture.
#[derive(Clone, Copy, PartialEq, Eq, Default, Debug)]
pub struct Area {
    /// Its height.
    pub height: Option<u64>,
    /// Its width.
    pub width: Option<u64>,
    /// Its offset from the left.
    pub x_offset: Option<u64>,
    /// Its offset from the top.
    pub y_offset: Option<u64>,
}

/// The items of a picture descriptor's set.
#[derive(Clone, Copy, PartialEq, Default, Debug)]
pub struct Descriptor {
    /// Item 0202h.
    pub duration: Option<u64>,
    /// Item 1502h, rounded.
    pub timecode_base: Option<u64>,
    /// Item 1501h.
    pub start_timecode: Option<u64>,
    /// Item 1503h.
    pub drop_frame: Option<u64>,
    /// Item 3001h, frames a second.
    pub sample_rate: Option<f64>,
    /// Item 3002h.
    pub container_duration: Option<u64>,
    /// Item 3202h.
    pub stored_height: Option<u64>,
    /// Item 3203h.
    pub stored_width: Option<u64>,
    /// Items 3204h to 3207h.
    pub sampled: Area,
    /// Items 3208h to 320Bh.
    pub display: Area,
    /// Item 320Eh.
    pub aspect_ratio: Option<f64>,
    /// Item 3306h.
    pub color_range: Option<u64>,
}

impl Descriptor {
    /// The items of a set. Those above 8 bytes, or too short for their type, are passed by.
    ///
    /// ```
    /// use brinethimble::{Descriptor, Refusal};
    ///
    /// let set = b"\x32\x02\x00\x04\x00\x00\x04\x38\x30\x01\x00\x08\x00\x00\x00\x32\x00\x00\x00\x02";
    /// let descriptor = Descriptor::parse_set(set)?;
    /// assert_eq!((descriptor.stored_height, descriptor.sample_rate), (Some(1080), Some(25.0)));
    /// assert_eq!(descriptor.stored_width, None);
    /// assert_eq!(Descriptor::parse_set(&set[..19]), Err(Refusal::ItemPastSet));
    /// # Ok::<(), Refusal>(())
    /// ```
    pub fn parse_set(set: &[u8]) -> Result<Self, Refusal> {
        let v = boundary::descriptor(set)?;
        let area = |[height, width, x, y]: [usize; 4]| Area {
            height: v.whole(height),
            width: v.whole(width),
            x_offset: v.whole(x),
            y_offset: v.whole(y),
        };
        Ok(Descriptor {
            duration: v.whole(DESCRIPTOR_DURATION),
            timecode_base: v.whole(DESCRIPTOR_TIMECODE_BASE),
            start_timecode: v.whole(DESCRIPTOR_START_TIMECODE),
            drop_frame: v.whole(DESCRIPTOR_DROP_FRAME),
            sample_rate: v.double(DESCRIPTOR_SAMPLE_RATE),
            container_duration: v.whole(DESCRIPTOR_CONTAINER_DURATION),
            stored_height: v.whole(DESCRIPTOR_STORED_HEIGHT),
            stored_width: v.whole(DESCRIPTOR_STORED_WIDTH),
            sampled: area([DESCRIPTOR_SAMPLED_HEIGHT, DESCRIPTOR_SAMPLED_WIDTH, DESCRIPTOR_SAMPLED_X_OFFSET, DESCRIPTOR_SAMPLED_Y_OFFSET]),
            display: area([DESCRIPTOR_DISPLAY_HEIGHT, DESCRIPTOR_DISPLAY_WIDTH, DESCRIPTOR_DISPLAY_X_OFFSET, DESCRIPTOR_DISPLAY_Y_OFFSET]),
            aspect_ratio: v.double(DESCRIPTOR_ASPECT_RATIO),
            color_range: v.whole(DESCRIPTOR_COLOR_RANGE),
        })
    }
}

#[cfg(test)]
mod tests {
    use super::*;

    #[test]
    fn nothing_is_found_in_nothing() {
        assert_eq!(header_partition_metadata(&[]), None);
        assert_eq!(Primer(&[]).get(0), None);
        assert_eq!(dynamic_metadata(&[]), None);
        assert_eq!(payload_into(&[], &mut []), Ok(0));
        assert_eq!(payload_into(&[9], &mut []), Ok(0));
        assert_eq!(lines(&[]).count() + lines(&[9]).count(), 0);
        assert_eq!(Descriptor::parse_set(&[]), Ok(Descriptor::default()));
    }

    #[test]
    fn a_header_part_of_2_to_the_64_bytes_is_cut_to_the_buffer() {
        let mut file = b"\x06\x0e\x2b\x34\x02\x05\x01\x01\x0d\x01\x02\x01\x01\x02\x04\x00\x28".to_vec();
        file.extend([0xff; 40]);
        file.extend(b"all");
        assert_eq!(header_partition_metadata(&file), Some(&b"all"[..]));
    }

    #[test]
    fn a_primer_of_other_entries_is_empty_and_a_partial_one_is_dropped() {
        let pack = |size: u8| [&[0, 0, 0, 1, 0, 0, 0, size, 0x80, 1][..], &[7; 16]].concat();
        assert_eq!(Primer(&pack(18)).get(0x8001), Some(&[7; 16]));
        assert_eq!(Primer(&pack(17)).get(0x8001), None);
        assert_eq!(Primer(&pack(18)[..25]).get(0x8001), None);
    }

    #[test]
    fn a_table_says_of_every_tag_what_the_search_says_whatever_was_in_it() {
        let packs = [
            vec![],
            [&[0, 0, 0, 0, 0, 0, 0, 17][..], &[0x80; 40]].concat(),
            [&[0xff, 0xff, 0xff, 0xff, 0, 0, 0, 18][..], &[0; 18], &[0xff; 18], &[0; 18], &[0x80; 17]].concat(),
            [&[0, 0, 0, 0, 0, 0, 0, 18][..], &[0x80; 18], &[0x81; 18]].concat(),
        ];
        for before in [0, 1, 2, u64::MAX] {
            let mut table = [before; TAGS];
            for pack in &packs {
                let tabled = Primer(pack).tabled(&mut table);
                assert!((0..=u16::MAX).all(|tag| tabled.get(tag) == Primer(pack).get(tag)));
            }
        }
    }

    #[test]
    fn a_table_that_was_not_filled_names_nothing_or_an_entry_with_the_tag() {
        let pack = [&[0, 0, 0, 2, 0, 0, 0, 18][..], &[0x3c, 0x0a], &[1; 16], &[0x3c, 0x0a], &[2; 16]].concat();
        for (number, answer) in [(0, [1, 10]), (1, [1, 28]), (2, [0, 0]), (u64::MAX, [0, 0])] {
            let table = [number; TAGS];
            assert_eq!(boundary::primer_in(&pack, &table, 0x3c0a), answer);
            assert_eq!(boundary::primer_in(&pack, &table, 0x3c0b), [0, 0]);
        }
    }

    #[test]
    fn a_line_longer_than_its_element_ends_the_payload() {
        let line = b"\0\x09\0\0\xff\xff\xff\xff\xff\xff\0\0\0\x01\x43\x05\0\0ab";
        let element = [&[0xff, 0xff][..], line].concat();
        assert_eq!(payload_into(&element, &mut [0; 32]), Ok(0));
        assert_eq!(lines(&element).count(), 0);
    }

    #[test]
    fn lines_past_the_count_are_not_read() {
        let line = b"\0\x09\0\0\0\x06\0\0\0\x06\0\0\0\x01\x43\x05\0\0ab";
        assert_eq!(lines(&[&[0, 1][..], line, line].concat()).count(), 1);
    }

    #[test]
    fn the_payload_of_a_line_without_an_array_is_empty() {
        assert_eq!(lines(b"\0\x01\0\0\0\0\0\0\0\0\0\0\0\0\0\0").collect::<Vec<_>>(), [b""]);
    }

    #[test]
    fn room_is_not_written_where_it_is_too_small() {
        let element = b"\0\x01\0\x09\0\0\0\x06\0\0\0\x06\0\0\0\x01\x43\x05\0\0ab";
        let mut room = [7];
        assert_eq!(payload_into(element, &mut room), Err(Refusal::NoRoom { needed: 2 }));
        assert_eq!(room, [7]);
    }

    #[test]
    fn a_rate_over_0_is_nothing_and_replaces_an_earlier_one() {
        let set = b"\x30\x01\0\x08\0\0\0\x32\0\0\0\x02\x30\x01\0\x08\0\0\0\x32\0\0\0\0";
        assert_eq!(Descriptor::parse_set(set), Ok(Descriptor::default()));
    }
}
