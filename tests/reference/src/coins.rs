//! Draws (01, "Coins").

/// A draw that has no face: it was among 0, or the source ended before it was
/// decided. On a tape this is cause 7.
#[derive(Clone, Copy, Debug, PartialEq, Eq)]
pub struct Undecided;

/// A source of faces. The rules ask it for one draw after another.
pub trait Source {
    /// A face below `m`. A draw among 1 gives 0 and takes nothing from a tape.
    fn draw(&mut self, m: u64) -> Result<u64, Undecided>;
}

/// One draw among `m` faces from the words of `tape` at `place`: the face and
/// the place after the last word read.
///
/// 01: "m = 1 reads nothing and gives 0. Otherwise read words until one is
/// below m × ⌊2^32 / m⌋; the face is that word mod m."
pub fn draw(m: u64, tape: &[u32], place: usize) -> Result<(u64, usize), Undecided> {
    match m {
        0 => return Err(Undecided),
        1 => return Ok((0, place)),
        _ => {}
    }
    let limit = m * ((1 << 32) / m);
    let unread = tape.get(place..).unwrap_or(&[]);
    for (passed, &word) in unread.iter().enumerate() {
        if u64::from(word) < limit {
            return Ok((u64::from(word) % m, place + passed + 1));
        }
    }
    Err(Undecided)
}

/// A tape of words and the place on it.
#[derive(Clone, Copy, Debug)]
pub struct Tape<'a> {
    words: &'a [u32],
    place: usize,
}

impl<'a> Tape<'a> {
    /// A tape read from its start.
    pub fn new(words: &'a [u32]) -> Self {
        Tape { words, place: 0 }
    }

    /// The number of words read so far.
    pub fn place(&self) -> usize {
        self.place
    }
}

impl Source for Tape<'_> {
    /// An undecided draw leaves the place as it was before that draw.
    fn draw(&mut self, m: u64) -> Result<u64, Undecided> {
        let (face, place) = draw(m, self.words, self.place)?;
        self.place = place;
        Ok(face)
    }
}

/// A given list of faces, one for each draw, draws among 1 included.
#[derive(Clone, Copy, Debug)]
pub struct Faces<'a> {
    faces: &'a [u64],
}

impl<'a> Faces<'a> {
    pub fn new(faces: &'a [u64]) -> Self {
        Faces { faces }
    }

    /// The faces no draw has taken yet.
    pub fn left(&self) -> &'a [u64] {
        self.faces
    }
}

impl Source for Faces<'_> {
    /// Undecided where no face is left, or the next is not among the `m`.
    fn draw(&mut self, m: u64) -> Result<u64, Undecided> {
        match self.faces.split_first() {
            Some((&face, rest)) if face < m => {
                self.faces = rest;
                Ok(face)
            }
            _ => Err(Undecided),
        }
    }
}

#[cfg(test)]
mod tests {
    use super::*;

    #[test]
    fn top_words_are_passed_over() {
        assert_eq!(draw(3, &[0xFFFF_FFFF], 0), Err(Undecided));
        assert_eq!(draw(3, &[0xFFFF_FFFE], 0), Ok((2, 1)));
        assert_eq!(draw(3, &[0xFFFF_FFFF, 0xFFFF_FFFF, 4], 0), Ok((1, 3)));
        assert_eq!(draw(3, &[9, 0xFFFF_FFFF, 5], 1), Ok((2, 3)));
    }

    #[test]
    fn among_one_reads_nothing() {
        assert_eq!(draw(1, &[], 0), Ok((0, 0)));
        assert_eq!(draw(1, &[7], 0), Ok((0, 0)));
        assert_eq!(draw(1, &[7], 5), Ok((0, 5)));
    }

    #[test]
    fn among_none_is_undecided() {
        assert_eq!(draw(0, &[], 0), Err(Undecided));
        assert_eq!(draw(0, &[1, 2], 1), Err(Undecided));
    }

    #[test]
    fn powers_of_two_pass_over_nothing() {
        for bits in 1..=32 {
            let m = 1u64 << bits;
            assert_eq!(draw(m, &[u32::MAX], 0), Ok((m - 1, 1)));
        }
    }

    #[test]
    fn more_faces_than_words_are_never_decided() {
        assert_eq!(draw((1 << 32) + 1, &[0, 1, 2], 0), Err(Undecided));
        assert_eq!(draw(u64::MAX, &[0, 1, 2], 0), Err(Undecided));
    }

    #[test]
    fn place_past_the_end_is_undecided() {
        assert_eq!(draw(2, &[0], 1), Err(Undecided));
        assert_eq!(draw(2, &[0], 2), Err(Undecided));
        assert_eq!(draw(2, &[0], usize::MAX), Err(Undecided));
    }

    /// The words taken as faces are m equal runs, and fewer than m are passed over.
    #[test]
    fn faces_have_equally_many_words() {
        for m in (2..5000).chain([(1 << 31) - 1, (1 << 31) + 1, u64::from(u32::MAX)]) {
            let words = 1u64 << 32;
            let last_run = words - words % m;
            assert_eq!(draw(m, &[(last_run - 1) as u32], 0), Ok((m - 1, 1)));
            if last_run < words {
                assert_eq!(draw(m, &[last_run as u32], 0), Err(Undecided));
            }
            assert_eq!(draw(m, &[0], 0), Ok((0, 1)));
        }
    }

    #[test]
    fn tape_place_moves_with_each_word_and_stays_when_undecided() {
        let words = [5, 0xFFFF_FFFF, 7, 0xFFFF_FFFF];
        let mut tape = Tape::new(&words);
        assert_eq!(tape.draw(3), Ok(2));
        assert_eq!(tape.place(), 1);
        assert_eq!(tape.draw(3), Ok(1));
        assert_eq!(tape.place(), 3);
        assert_eq!(tape.draw(1), Ok(0));
        assert_eq!(tape.draw(0), Err(Undecided));
        assert_eq!(tape.draw(3), Err(Undecided));
        assert_eq!(tape.place(), 3);
        assert_eq!(tape.draw(2), Ok(1));
        assert_eq!(tape.place(), 4);
    }

    #[test]
    fn given_faces_come_in_order() {
        let mut faces = Faces::new(&[1, 0, 4]);
        assert_eq!(faces.draw(2), Ok(1));
        assert_eq!(faces.draw(1), Ok(0));
        assert_eq!(faces.draw(4), Err(Undecided));
        assert_eq!(faces.left(), &[4]);
        assert_eq!(faces.draw(5), Ok(4));
        assert_eq!(faces.draw(5), Err(Undecided));
    }
}
