//! Sealed files of which one byte or two are altered: none opens, and the lowest
//! altered block is named. Of three altered bytes some are not noticed.

use differential::files::{
    block_count, build, bundle_length, refused_block, Field, Filling, BLOCK, CONTENTS, MAX_BLOCKS,
    MODULUS,
};
use differential::guarded::Guarded;
use differential::rng::Rng;
use differential::run::Run;
use reference::Refusal;

/// One call in so many is made on both sides, and compared with the rules.
const SAMPLED: usize = 997;

/// Bytes of a block before its sums.
const SUMMED: usize = 508;

/// A sealed file to alter, and an output of noise between guards.
struct Sealed {
    file: Vec<u8>,
    output: Guarded<u8>,
    opened: usize,
}

impl Sealed {
    /// The file of this bundle; the output is long enough, or not.
    fn new(run: &mut Run, bundle: &[u8]) -> Self {
        let file = hovmekhar::seal_vec(bundle).expect("a bundle of a right length");
        assert!(file == build(bundle), "another file: {run}");
        let exact = bundle.len();
        let room = run.rng.choose(&[0, 1, exact - 1, exact, exact + 7]);
        let [front, output, back] = [65, room, 64].map(|length| run.rng.bytes(length));
        Self {
            file,
            output: Guarded::new(&front, &output, &back),
            opened: 0,
        }
    }

    /// Opens the file as it is now: it is refused with 17, 18 or 2 at this block, and
    /// the output is as it was.
    fn refused(&mut self, run: &mut Run, spot: usize) {
        let answer = hovmekhar::open(&self.file, self.output.lent_mut());
        let number = match answer {
            Err(refusal) if refusal.spot == spot => refusal.number,
            _ => panic!("block {spot} is altered, and the answer is {answer:?}: {run}"),
        };
        assert!([17, 18, 2].contains(&number), "refusal {number}: {run}");
        assert!(self.output.kept_beyond(0), "the output changed: {run}");
        run.count(number);

        self.opened += 1;
        if self.opened % SAMPLED == 1 {
            let refused = Refusal { number, spot };
            assert_eq!(refused_block(&self.file), Some(refused), "{run}");
            let done = run.open(&self.file, self.output.lent().len());
            assert_eq!(done.outcome, Err(refused), "{run}");
            run.note("on both sides");
        }
    }

    /// Opens the file with these bytes at these positions, then puts it right again.
    fn refused_with(&mut self, run: &mut Run, altered: [(usize, u8); 2]) {
        let before = altered.map(|(at, _)| self.file[at]);
        for (at, byte) in altered {
            self.file[at] = byte;
        }
        let lowest = altered.map(|(at, _)| at).into_iter().min();
        self.refused(run, lowest.expect("two") / BLOCK);
        for ((at, _), byte) in altered.into_iter().zip(before) {
            self.file[at] = byte;
        }
    }
}

/// Files of one block to the largest, each with a block to alter: the first, the last,
/// or one between; the last block full, nearly empty, or in between.
const FILES: [(usize, usize, usize); 7] = [
    (1, 1, 0),
    (1, 250, 0),
    (1, CONTENTS, 0),
    (2, 100, 1),
    (7, 503, 3),
    (MAX_BLOCKS, CONTENTS, 0),
    (MAX_BLOCKS, 77, MAX_BLOCKS - 1),
];

#[test]
fn every_other_value_of_every_byte_of_a_block() {
    let mut run = Run::start("every_other_value_of_every_byte_of_a_block");
    for (blocks, last, block) in FILES {
        let bundle = run.rng.bytes(bundle_length(blocks, last));
        let mut sealed = Sealed::new(&mut run, &bundle);
        for at in block * BLOCK..(block + 1) * BLOCK {
            for change in 1..=255 {
                sealed.file[at] ^= change;
                sealed.refused(&mut run, block);
                sealed.file[at] ^= change;
            }
        }
        assert!(sealed.file == build(&bundle), "not put right: {run}");
    }
    run.finish_with_classes(
        // The two bytes of the number; what is not used, and more; the sums, and more.
        &[(17, 7 * 510), (18, 50_000), (2, 7 * 4 * 255 + 300_000)],
        &[("on both sides", 7 * 512 * 255 / SAMPLED)],
    );
}

#[test]
fn every_two_unequal_bytes_of_a_block_that_change_places() {
    let mut run = Run::start("every_two_unequal_bytes_of_a_block_that_change_places");
    for (blocks, last, block) in FILES {
        let bundle = run.rng.bytes(bundle_length(blocks, last));
        let mut sealed = Sealed::new(&mut run, &bundle);
        for low in 0..SUMMED {
            for high in low + 1..SUMMED {
                let [i, j] = [low, high].map(|at| block * BLOCK + at);
                if sealed.file[i] != sealed.file[j] {
                    sealed.file.swap(i, j);
                    sealed.refused(&mut run, block);
                    sealed.file.swap(i, j);
                }
            }
        }
        assert!(sealed.file == build(&bundle), "not put right: {run}");
    }
    run.finish_with_classes(
        &[(17, 1_500), (18, 70_000), (2, 400_000)],
        &[("on both sides", 500)],
    );
}

/// A byte that is not this one.
fn other(rng: &mut Rng, byte: u8) -> u8 {
    byte ^ rng.nonzero_byte()
}

/// Two bytes of one block before its sums, with opposite changes: S is as it was.
fn opposite(rng: &mut Rng, file: &[u8], start: usize) -> [(usize, u8); 2] {
    loop {
        let (low, high) = rng.two_below(SUMMED);
        let [i, j] = rng.shuffled(&[start + low, start + high])[..] else {
            unreachable!("two")
        };
        let change = rng.nonzero_byte();
        if let (Some(up), Some(down)) = (file[i].checked_add(change), file[j].checked_sub(change)) {
            return [(i, up), (j, down)];
        }
    }
}

/// A byte of a block before its sums, and a byte of one of these with which that sum
/// is right again.
fn with_its_sum(rng: &mut Rng, file: &[u8], start: usize, sum: Field) -> [(usize, u8); 2] {
    let block = &file[start..start + BLOCK];
    loop {
        let i = rng.below(SUMMED);
        let byte = other(rng, block[i]);
        let (at, weight) = match sum {
            Field::PlainSum => (SUMMED, 1),
            _ => (SUMMED + 2, i + 1),
        };
        let added = sum.read(block) + weight * usize::from(byte) + 2 * MODULUS;
        let value = (added - weight * usize::from(block[i])) % MODULUS;
        let [low, high] = [value % 256, value / 256].map(|part| part as u8);
        let altered = match [low != block[at], high != block[at + 1]] {
            [true, false] => (start + at, low),
            [false, true] => (start + at + 1, high),
            _ => continue,
        };
        return [(start + i, byte), altered];
    }
}

/// A million alterations of two bytes, of files of 1 to 128 blocks.
#[test]
fn two_bytes() {
    let mut run = Run::start("two_bytes");
    for _ in 0..run.cases(1_000) {
        let blocks = match run.rng.below(4) {
            0 => run.rng.within(1..=MAX_BLOCKS),
            _ => block_count(&mut run.rng, 1),
        };
        let last = run.rng.within(1..=CONTENTS);
        let filling = run.rng.choose(&Filling::ALL);
        let bundle = filling.bundle(&mut run.rng, bundle_length(blocks, last));
        let mut sealed = Sealed::new(&mut run, &bundle);
        for _ in 0..1_000 {
            let (block, higher) = match blocks {
                1 => (0, 0),
                _ => run.rng.two_below(blocks),
            };
            let start = block * BLOCK;
            let file = &sealed.file;
            let rng = &mut run.rng;
            let any = |rng: &mut Rng, at: usize| (at, other(rng, file[at]));
            let (class, altered) = match rng.below(6) {
                0 => {
                    let (i, j) = rng.two_below(file.len());
                    ("any two", [any(rng, i), any(rng, j)])
                }
                1 => {
                    let (i, j) = rng.two_below(BLOCK);
                    ("in one block", [any(rng, start + i), any(rng, start + j)])
                }
                2 => ("opposite changes", opposite(rng, file, start)),
                3 => (
                    "S put right",
                    with_its_sum(rng, file, start, Field::PlainSum),
                ),
                4 => (
                    "W put right",
                    with_its_sum(rng, file, start, Field::WeightedSum),
                ),
                _ if blocks > 1 => {
                    let [i, j] = [block, higher].map(|k| k * BLOCK + rng.below(BLOCK));
                    ("in two blocks", [any(rng, i), any(rng, j)])
                }
                _ => {
                    let (i, j) = rng.two_below(4);
                    ("in the sums", [any(rng, SUMMED + i), any(rng, SUMMED + j)])
                }
            };
            run.note(class);
            sealed.refused_with(&mut run, altered);
        }
        assert!(sealed.file == build(&bundle), "not put right: {run}");
    }
    run.finish_with_classes(
        &[(17, 5_000), (18, 50_000), (2, 500_000)],
        &[
            ("any two", 150_000),
            ("in one block", 150_000),
            ("opposite changes", 150_000),
            ("S put right", 150_000),
            ("W put right", 150_000),
            ("in two blocks", 50_000),
            ("in the sums", 10_000),
            ("on both sides", 1_000),
        ],
    );
}

/// Three bytes of the contents at equal distances, altered by c, −2c and c: neither sum
/// changes, and the file opens into another bundle. So three altered bytes are not
/// always noticed.
#[test]
fn three_bytes_that_keep_both_sums() {
    let mut run = Run::start("three_bytes_that_keep_both_sums");
    for _ in 0..run.cases(2_000) {
        let blocks = block_count(&mut run.rng, 1);
        let bundle = run.rng.bytes(bundle_length(blocks, CONTENTS));
        let file = build(&bundle);
        let block = run.rng.below(blocks);
        let (altered, other) = loop {
            let step = run.rng.choose(&[1, 1, 2, 100]);
            let first = run.rng.below(CONTENTS - 2 * step);
            let [i, j, k] = [0, 1, 2].map(|n| first + n * step);
            let change = run.rng.choose(&[1, 1, 2, 100]);
            let changes = [(i, change), (j, -2 * change), (k, change)];
            if let Some(both) = three_altered(&file, &bundle, block, changes) {
                break both;
            }
        };
        let differing = file.iter().zip(&altered).filter(|(old, new)| old != new);
        assert_eq!(differing.count(), 3, "{run}");
        let done = run.open(&altered, other.len());
        assert_eq!(done.outcome, Ok(other.len()), "{run}");
        assert!(done.output == other && other != bundle, "{run}");
    }
    run.finish(&[(0, 2_000)]);
}

/// The file and its bundle with these changes to bytes of a block's contents, where
/// each of them is a byte then.
fn three_altered(
    file: &[u8],
    bundle: &[u8],
    block: usize,
    changes: [(usize, i16); 3],
) -> Option<(Vec<u8>, Vec<u8>)> {
    let (mut file, mut bundle) = (file.to_vec(), bundle.to_vec());
    for (at, change) in changes {
        let byte = &mut bundle[block * CONTENTS + at];
        *byte = u8::try_from(i16::from(*byte) + change).ok()?;
        file[block * BLOCK + 4 + at] = *byte;
    }
    Some((file, bundle))
}
