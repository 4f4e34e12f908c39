//! The cases of vectors/reading.txt: images written by hand, each with the number and the offset that 01 gives it. The expectations
//! stand beside the images; the model's reading is compared with them, not the source of them.

mod fields;
mod limits;
mod places;

use crate::text::compact;

pub struct Case {
    pub image: Image,
    /// 0 where the image is read, else 01's refusal.
    pub number: u8,
    pub offset: usize,
}

/// An image in segments, each repeated so many times.
#[derive(Debug, Clone, Default)]
pub struct Image(Vec<(Vec<u8>, usize)>);

impl Image {
    pub fn then(mut self, bytes: &[u8]) -> Image {
        match self.0.last_mut() {
            Some((last, 1)) => last.extend(bytes),
            _ => self.0.push((bytes.to_vec(), 1)),
        }
        self
    }

    pub fn times(mut self, bytes: &[u8], count: usize) -> Image {
        self.0.push((bytes.to_vec(), count));
        self
    }

    pub fn len(&self) -> usize {
        self.0.iter().map(|(bytes, count)| bytes.len() * count).sum()
    }

    pub fn is_empty(&self) -> bool {
        self.len() == 0
    }

    pub fn bytes(&self) -> Vec<u8> {
        self.0.iter().flat_map(|(bytes, count)| bytes.repeat(*count)).collect()
    }

    /// A case in which this image is read.
    fn passes(self) -> Case {
        Case { image: self, number: 0, offset: 0 }
    }

    /// A case in which this image is refused.
    fn refused(self, number: u8, offset: usize) -> Case {
        Case { image: self, number, offset }
    }
}

/// All cases, in the order of the file.
pub fn cases() -> Vec<Case> {
    let mut cases = vec![Image::default().passes()];
    cases.extend(fields::cases());
    cases.extend(places::cases());
    cases.extend(limits::cases());
    cases
}

/// The file's text: one case a line, the image in the compact form, the number, the offset.
pub fn text() -> String {
    let line = |case: &Case| format!("{} {} {}\n", compact(&case.image.0), case.number, case.offset);
    cases().iter().map(line).collect()
}
