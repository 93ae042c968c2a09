//! The cases of the bench, through the crate's own calls, at both widths.
mod refusals;
mod width16;
mod width32;

/// The numbers by which the cases of a width differ from those of the other.
struct Numbers<Word> {
    /// The name of the type of sketches.
    name: &'static str,
    modulus: Word,
    /// What the modulus leaves of the greatest number.
    residue_of_max: Word,
    /// The inverses of 2, 3 and 4.
    inverses: [Word; 3],
    /// Exponents, and the multiplications that their powers need.
    multiplications: [(Word, u32); 4],
    /// The packet of threshold 2 after 1 and 10.
    packet: &'static [u8],
    /// The lengths of that packet with no sum, with one and with both.
    packet_lengths: [usize; 3],
    /// The length of the longest packet that is too short to be read.
    too_short: usize,
    /// Lengths of packets that have no sum.
    without_sum: [usize; 2],
    /// The length of the shortest packet that has too many sums.
    too_long: usize,
    /// The least and the greatest length of packets that are read, and the sums that these have.
    read: [(usize, usize); 2],
}
