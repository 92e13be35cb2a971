//! The bench figures of paper 01, the guards that SBC-3 publishes and worked joins, run through the model alone.

use crate::random::Random;
use model::checksum::{START, Sum, checksum};
use model::crc32c::{self, crc32c};
use model::guard::{go_on, guard};
use model::join;
use model::layout::{Array, MOST_STRIPES, Owner, Place};
use model::report;
use model::scan::{self, History, Scan};
use model::stripe::{self, Checked, Field, Fields, Fits, Source, Verdict, guard_of, stored_guards};
use std::fmt::Debug;
use std::ops::Range;

/// The bytes of a block of methods 1 and 2, its data and all of it, and the data of a block of method 3.
const DATA: usize = 512;
const BLOCK: usize = 520;
const LARGE: usize = 4_096;

/// The bytes of a member in a stripe of methods 1 and 2.
fn span(member: usize) -> Range<usize> {
    member * BLOCK..(member + 1) * BLOCK
}

/// Figures that were right, or the first that was not.
struct Figures {
    right: u32,
}

impl Figures {
    fn due<T: PartialEq + Debug>(&mut self, what: &str, found: T, due: T) -> Result<(), String> {
        if found != due {
            return Err(format!("{what}: the model has {found:X?}, due is {due:X?}"));
        }
        self.right += 1;
        Ok(())
    }

    fn guards(&mut self) -> Result<(), String> {
        let rising: Vec<u8> = (0x00..=0x1F).collect();
        let falling: Vec<u8> = (0xE0..=0xFF).rev().collect();
        let ones_first = [&[0xFF; 2][..], &[0x00; 30]].concat();
        let rows: [(&[u8], u16); 13] = [
            (&[], 0x0000),
            (&[0x00], 0x0000),
            (&[0x01], 0x8BB7),
            (&[0x02], 0x9CD9),
            (&[0x03], 0x176E),
            (&[0x01, 0x8B, 0xB7], 0x0000),
            (&[0x01, 0x8B, 0xB6], 0x8BB7),
            (&[0x00; 32], 0x0000),
            (&[0xFF; 32], 0xA293),
            (&rising, 0x0224),
            (&ones_first, 0x21B8),
            (&falling, 0xA0B7),
            (b"123456789", 0xD0DB),
        ];
        for (bytes, due) in rows {
            self.due("guard", guard(bytes), due)?;
            self.due("guard by single bytes", go_on(0, bytes), due)?;
        }
        self.due(
            "combination of 9, 4, 8, C",
            stripe::quick_scrub(&[9, 4, 8, 0xC]),
            Ok(9),
        )
    }

    /// Checksums worked by hand, of words that carry and words that rotate, and the document's own code on blocks.
    fn checksums(&mut self, random: &mut Random) -> Result<(), String> {
        let rows: [(&[u8], u16); 12] = [
            (&[], 0xFFFF),
            (&[0x00, 0x00], 0xFFFF),
            (&[0xFF, 0xFF], 0xFFFF),
            (&[0x00, 0x01], 0x0001),
            (&[0xFF, 0xFE], 0xFFFE),
            (&[0x00, 0x01, 0x00, 0x00], 0x0002),
            (&[0x80, 0x00, 0x00, 0x00], 0x0001),
            (&[0x80, 0x00, 0xFF, 0xFF], 0x0001),
            (&[0x00, 0x01, 0xFF, 0xFD], 0xFFFF),
            (&[0x12, 0x34, 0x00, 0x01], 0x2469),
            (&[0xFE, 0xDC, 0xBA, 0x98], 0xB852),
            (b"12345678", 0xF806),
        ];
        for (bytes, due) in rows {
            self.due("checksum", checksum(bytes), Ok(due))?;
            self.due("checksum by bytes", by_bytes(bytes), (due, None))?;
            let odd = [bytes, &[0x5A]].concat();
            self.due("checksum, odd", checksum(&odd), Err(6))?;
            self.due("a byte waits", by_bytes(&odd), (due, Some(0x5A)))?;
        }
        for _ in 0..100 {
            let block = random.bytes(DATA);
            self.due(
                "suggested code",
                suggested(&block),
                checksum(&block).expect("whole words"),
            )?;
        }
        Ok(())
    }

    /// A method that is none is refused after members and stripes, and before all else.
    fn methods(&mut self) -> Result<(), String> {
        let none = |method| Array {
            method,
            ..array(3, 1)
        };
        for method in [0, 4, 255] {
            let none = none(method);
            self.due("no method", none.fits(), Err(12))?;
            let few = Array { members: 2, ..none };
            self.due("few members go first", few.fits(), Err(1))?;
            let far = Array { stripes: 0, ..none };
            self.due("no stripes go first", far.fits(), Err(2))?;
            self.due("a far block goes later", none.place(2), Err(12))?;
            self.due("a far stripe goes later", none.owner(1, 3), Err(12))?;
            let scrubbed = stripe::scrub(&none, 0, &[]);
            self.due("a wrong length goes later", scrubbed, Err(12))?;
            let started = scan::start(&none, 0, &[0; DATA]);
            self.due("start, no method", started, Err(12))?;
            let state = Scan {
                members: 3,
                stripes: 1,
                method,
                row: 1,
                ..Scan::ZEROS
            };
            let finished = scan::finish(&state, &[0; DATA]);
            self.due("finish, no method", finished, Err(4))?;
            let piece = scan::piece(&state, 3, &[], &[]);
            self.due("piece, no method", piece, Err(4))?;
            let image = [&report::header_of(2, &none)[..], &sealed()].concat();
            let due = String::from("REFUSED 12\n");
            self.due("header, no method", report::report(&image), due)?;
        }
        for method in [1, 2, 3] {
            self.due("a method", none(method).fits(), Ok(()))?;
        }
        Ok(())
    }

    /// The bench's stripe by method 2.
    fn summed_stripe(&mut self) -> Result<(), String> {
        let three = summed(3, 1);
        let sealed = sealed_in(&three);
        self.due("summed parity", &sealed[508..DATA], &[0, 0, 0, 3])?;
        for (member, tag) in [
            (0, [0x00, 0x03, 0x80, 7, 0, 0, 0, 0]),
            (1, [0x00, 0x01, 0x00, 7, 0, 0, 0, 0]),
            (2, [0x00, 0x02, 0x00, 7, 0, 0, 0, 1]),
        ] {
            let block = &sealed[span(member)];
            self.due("summed tag", &block[DATA..], &tag)?;
        }
        let scrubbed = stripe::scrub(&three, 0, &sealed);
        self.due("summed scrub", scrubbed, Ok(Verdict::Clean))?;
        let updated = stripe::update(&three, 0, &[0; DATA], &sealed).expect("good blocks");
        let guards = stored_guards(&three.format(), &updated);
        self.due("updated sums", guards, vec![0xFFFD, 0xFFFF, 0x0002])?;
        let parity = &updated[..BLOCK];
        self.due("its own", guard_of(&three, &parity[..DATA]), 0x0002)?;
        let numbers = [0xFFFD, 0x8007, 0];
        let said = stripe::check(&three, 0, 0, parity);
        let good = Checked::Good(fields(numbers, numbers));
        self.due("the parity's guard as found", said, Ok(good))?;
        let scrubbed = stripe::scrub(&three, 0, &updated);
        self.due("updated scrub", scrubbed, Ok(Verdict::Clean))?;
        for member in 0..3 {
            let mut lost = updated.clone();
            lost[span(member)].fill(0);
            let rebuilt = stripe::rebuild(&three, 0, member, &lost);
            self.due("rebuilt by sums", rebuilt, Ok(updated.clone()))?;
        }
        let header = [0x00, 0x08, 0x02, 0x03, 0x07, 0x00, 0x00, 0x00, 0x01, 0x02];
        self.due("header 2", &report::header(&three)[..], &header)?;
        for (image, line) in [
            ([&header[..], &sealed].concat(), "CLEAN"),
            ([&header[..9], &[1], &self::sealed()].concat(), "CLEAN"),
        ] {
            let due = format!(
                "SCRUB v1 members 3 stripes 1\n0 {line}\nTOTAL 1 clean 1 bad 0 unchecked 0 torn 0\n"
            );
            self.due("report, version 2", report::report(&image), due)?;
        }
        for length in 0..header.len() {
            let report = report::report(&header[..length]);
            self.due("short", report, String::from("REFUSED 10\n"))?;
        }
        Ok(())
    }

    /// The parity's guard changed: nothing is bad, the stripe is torn by its guards alone, and no block with data is made of the others.
    fn torn_guards(&mut self) -> Result<(), String> {
        let three = summed(3, 1);
        let mut bytes = sealed_in(&three);
        bytes[DATA] ^= 0x80;
        let torn = Verdict::Torn { place: 512 };
        self.due("guards torn", stripe::scrub(&three, 0, &bytes), Ok(torn))?;
        let image = [&report::header(&three)[..], &bytes].concat();
        self.due(
            "its report",
            &report::report(&image)[..],
            "SCRUB v1 members 3 stripes 1\n0 TORN 512\nTOTAL 1 clean 0 bad 0 unchecked 0 torn 1\n",
        )?;
        let rebuilt = stripe::rebuild(&three, 0, 0, &bytes);
        self.due("its parity", rebuilt, Ok(sealed_in(&three)))?;
        for member in [1, 2] {
            let rebuilt = stripe::rebuild(&three, 0, member, &bytes);
            self.due("its members", rebuilt, Err(9))?;
        }
        bytes[span(2)][0] ^= 1;
        let read = stripe::read(&three, 1, &bytes, &[0; DATA]);
        self.due("its bad member read", read, Err(9))?;
        let bad = Verdict::Bad {
            member: 2,
            count: 1,
            fits: Fits {
                guard: false,
                ..Fits::ALL
            },
        };
        self.due("bad goes first", stripe::scrub(&three, 0, &bytes), Ok(bad))
    }

    /// A scan by method 2: where its registers start, and a byte that waits.
    fn summed_pieces(&mut self) -> Result<(), String> {
        let three = summed(3, 1);
        let (start, work) = scan::start(&three, 0, &[1; DATA]).expect("fit");
        let registers = [start.register, [0xFFFF; 16]];
        self.due("start of sums", registers[0], registers[1])?;
        self.due("nothing waits", start.waiting, [0; 16])?;
        let (odd, work) = scan::piece(&start, 1, &[0x12], &work).expect("fit");
        let found = (odd.at[1], odd.register[1], odd.waiting[1]);
        self.due("one byte", found, (1, 0xFFFF, 0x12))?;
        let four = [0x34, 0x00, 0x01, 0x56];
        let (even, _) = scan::piece(&odd, 1, &four, &work).expect("fit");
        let found = (even.at[1], even.register[1], even.waiting[1]);
        self.due("five bytes", found, (5, 0x2469, 0x56))?;
        let mut astray = start;
        astray.waiting[2] = 1;
        let finished = scan::finish(&astray, &work);
        self.due("a byte waits at 0", finished, Err(4))?;
        astray.at[2] = 1;
        let finished = scan::finish(&astray, &work);
        self.due("a byte waits at 1", finished, Err(8))?;
        astray.method = 1;
        let finished = scan::finish(&astray, &work);
        self.due("a byte waits by method 1", finished, Err(4))?;
        let mut wide = start;
        wide.register[2] = 0x1_0000;
        let finished = scan::finish(&wide, &work);
        self.due("a register of seventeen bits", finished, Err(4))?;
        (wide.register[2], wide.register[3]) = (0xFFFF, 0x1_0000);
        let finished = scan::finish(&wide, &work);
        self.due("one past the members", finished, Err(8))
    }

    /// The bench's stripe by method 3. Its guards were computed by another program.
    fn large_stripe(&mut self) -> Result<(), String> {
        let three = large(3, 1);
        let format = three.format();
        let lengths = (format.data, format.tag(), format.block());
        self.due("large lengths", lengths, (LARGE, 16, 4_112))?;
        let sealed = sealed_in(&three);
        self.due("large stripe", sealed.len(), 3 * 4_112)?;
        self.due("large parity", &sealed[LARGE - 4..LARGE], &[0, 0, 0, 3])?;
        let rows: [([u8; 4], [u8; 4], u8, [u64; 3]); 3] = [
            (
                [0x8B, 0xA9, 0xB2, 0x7D],
                [0x80, 7, 0, 0],
                0,
                [0x8BA9_B27D, 0x8007_0000, 0],
            ),
            (
                [0x6A, 0x92, 0xC2, 0x8A],
                [0x00, 7, 0, 0],
                0,
                [0x6A92_C28A, 0x0007_0000, 0],
            ),
            (
                [0x79, 0xC2, 0x31, 0x7E],
                [0x00, 7, 0, 0],
                1,
                [0x79C2_317E, 0x0007_0000, 1],
            ),
        ];
        for (member, (guard, application, last, numbers)) in rows.into_iter().enumerate() {
            let block = &sealed[format.span(member)];
            let tag = [&guard[..], &application, &[0; 7], &[last]].concat();
            self.due("large tag", &block[LARGE..], &tag)?;
            let said = stripe::check(&three, 0, member, block);
            let good = Checked::Good(fields(numbers, numbers));
            self.due("large check", said, Ok(good))?;
            let short = stripe::check(&three, 0, member, &block[..BLOCK]);
            self.due("a small block", short, Err(6))?;
        }
        let scrubbed = stripe::scrub(&three, 0, &sealed);
        self.due("large scrub", scrubbed, Ok(Verdict::Clean))?;
        let updated = stripe::update(&three, 0, &[0; LARGE], &sealed).expect("good blocks");
        let guards = stored_guards(&format, &updated);
        self.due("blank", crc32c(&[0; LARGE]), 0x98F9_4189)?;
        self.due(
            "updated large guards",
            guards,
            vec![0x79C2_317E, 0x98F9_4189, 0x79C2_317E],
        )?;
        for member in 0..3 {
            let mut lost = updated.clone();
            lost[format.span(member)].fill(0);
            let rebuilt = stripe::rebuild(&three, 0, member, &lost);
            self.due("large rebuilt", rebuilt, Ok(updated.clone()))?;
        }
        let header = [0x00, 0x08, 0x02, 0x03, 0x07, 0x00, 0x00, 0x00, 0x01, 0x03];
        self.due("large header", &report::header(&three)[..], &header)?;
        self.due(
            "large report",
            &report::report(&[&header[..], &sealed].concat())[..],
            "SCRUB v1 members 3 stripes 1\n0 CLEAN\nTOTAL 1 clean 1 bad 0 unchecked 0 torn 0\n",
        )?;
        self.due(
            "large tag of the last block",
            &stripe::due(&large(16, MOST_STRIPES), MOST_STRIPES - 1, 14, 0)[8..],
            &[0, 0, 0, 0xEF, 0xFF, 0xFF, 0xFF, 0xFF],
        )
    }

    /// A spare byte that is not zero, a reference past thirty-two bits, and the mark before either.
    fn large_faults(&mut self) -> Result<(), String> {
        let three = large(3, 1);
        let block = sealed_in(&three)[three.format().span(2)].to_vec();
        let due = [0x79C2_317E, 0x0007_0000, 1];
        for (place, found) in [
            (4_102, [due[0], 0x0007_0100, 1]),
            (4_103, [due[0], 0x0007_0001, 1]),
            (4_104, [due[0], due[1], 0x0100_0000_0000_0001]),
            (4_107, [due[0], due[1], 0x0000_0001_0000_0001]),
        ] {
            let mut block = block.clone();
            block[place] = 1;
            let said = stripe::check(&three, 0, 2, &block);
            self.due("large fault", said, Ok(Checked::Bad(fields(found, due))))?;
            block[4_100..4_102].fill(0xFF);
            let said = stripe::check(&three, 0, 2, &block);
            self.due("its mark", said, Ok(Checked::Unchecked))?;
        }
        Ok(())
    }

    /// Zeros, but for the parity, which ends in the generator, thirty-three bits long, or in some of it.
    fn large_torn(&mut self) -> Result<(), String> {
        let three = large(3, 1);
        for (first, quick) in [(0xF1, None), (0xF0, Some(0xA0E8_2E25))] {
            let mut parity = [0; LARGE];
            parity[LARGE - 5..].copy_from_slice(&[first, 0x76, 0xEC, 0x05, 0x01]);
            let data = [parity, [0; LARGE], [0; LARGE]];
            let guards = data.map(|data| crc32c(&data));
            let tagged =
                |member: usize| stripe::tagged(&three, 0, member, &data[member], guards[member]);
            let bytes: Vec<u8> = (0..3).flat_map(tagged).collect();
            let torn = Verdict::Torn { place: 4_091 };
            let scrubbed = stripe::scrub(&three, 0, &bytes);
            self.due("large torn", scrubbed, Ok(torn))?;
            let found = crc32c::quick_scrub(&guards);
            self.due("large quick scrub", found, Ok(quick))?;
        }
        Ok(())
    }

    /// A scan by method 3: its registers hold what is there before the end step.
    fn large_pieces(&mut self) -> Result<(), String> {
        let three = large(3, 1);
        let (start, work) = scan::start(&three, 0, &[1; LARGE]).expect("fit");
        self.due("large start", start.register, [0xFFFF_FFFF; 16])?;
        let short = scan::start(&three, 0, &[0; DATA]);
        self.due("a small work buffer", short, Err(6))?;
        let (nine, work) = scan::piece(&start, 1, b"123456789", &work).expect("fit");
        let found = (nine.at[1], nine.register[1], nine.waiting[1]);
        self.due("nine bytes", found, (9, !0xE306_9283, 0))?;
        let mut astray = start;
        astray.waiting[2] = 1;
        self.due("a byte waits", scan::finish(&astray, &work), Err(4))?;
        astray.at[2] = 1;
        self.due("at 1 too", scan::finish(&astray, &work), Err(4))?;
        for (at, due) in [(4_112, Err(8)), (4_113, Err(4))] {
            let mut far = start;
            far.at[2] = at;
            self.due("large position", scan::finish(&far, &work), due)?;
        }
        let mut history = History::open(three, 0);
        let sealed = sealed_in(&three);
        for (member, block) in sealed.chunks(4_112).enumerate() {
            self.due("early", history.finish(), Err(8))?;
            let (first, second) = block.split_at(4_097);
            for piece in [first, second] {
                self.due("large piece", history.piece(member, piece), Ok(()))?;
            }
        }
        self.due("then of 1", history.piece(1, &[0]), Err(7))?;
        self.due("large finish", history.finish(), Ok(Verdict::Clean))?;
        let state = history.state();
        self.due(
            "large registers",
            [state.register[1], state.register[2]],
            [!0x6A92_C28A, !0x79C2_317E],
        )?;
        self.due(
            "tag bytes from 32",
            &state.tag[32..48],
            &sealed[2 * 4_112 + LARGE..],
        )?;
        let finished = scan::finish(&state, &history.work());
        self.due("its finish", finished, Ok(Verdict::Clean))
    }

    fn joins(&mut self) -> Result<(), String> {
        let mut record = [0; 3 * DATA];
        for (block, last) in record.chunks_mut(DATA).zip(1..) {
            block[DATA - 1] = last;
        }
        self.due("a record", guard(&record), 0xF42E)?;
        for (pieces, length, due) in [
            (record.chunks(DATA), DATA, 0xF42E),
            (b"123456789".chunks(3), 3, 0xD0DB),
        ] {
            let joined = pieces.fold(0, |joined, piece| {
                join::join(joined, guard(piece), length as u32)
            });
            self.due("pieces joined", joined, due)?;
        }
        self.due("x, once round", join::power(join::ROUND), 1)?;
        for (zeros, due) in [(u32::MAX, 0xD0DB), (u32::MAX - 1, 0x7D23)] {
            self.due("zeros added", join::add_zeros(0xD0DB, zeros), due)?;
            self.due("and taken off", join::remove_zeros(due, zeros), 0xD0DB)?;
        }
        Ok(())
    }

    fn places(&mut self) -> Result<(), String> {
        let at = |stripe, member| Ok(Place { stripe, member });
        let five = array(5, MOST_STRIPES);
        for (block, due) in [
            (0, at(0, 1)),
            (3, at(0, 4)),
            (4, at(1, 0)),
            (5, at(1, 2)),
            (65_535, at(16_383, 4)),
            (65_536, at(16_384, 0)),
            (4_294_967_295, at(1_073_741_823, 4)),
            (4_294_967_296, at(1_073_741_824, 0)),
        ] {
            self.due("place, 5 members", five.place(block), due)?;
        }
        for (stripe, member, due) in [
            (1_073_741_823, 4, [0xFF; 4]),
            (1_073_741_824, 0, [0; 4]),
            (1_073_741_824, 4, [0; 4]),
            (1_073_741_825, 1, [0, 0, 0, 4]),
        ] {
            let tag = stripe::due(&five, stripe, member, 0);
            self.due("tag beside block 4,294,967,296", &tag[4..], &due)?;
        }
        self.due(
            "the same, large",
            &stripe::due(&large(5, MOST_STRIPES), 1_073_741_824, 0, 0)[8..],
            &[0, 0, 0, 1, 0, 0, 0, 0],
        )?;
        self.due(
            "tag of block 65,536",
            &stripe::due(&five, 16_384, 0, 0)[4..],
            &[0, 1, 0, 0],
        )?;
        let parity = Owner::Parity {
            lowest: 0x0004_0000,
        };
        self.due("parity of stripe 65,536", five.owner(65_536, 1), Ok(parity))?;
        self.due(
            "its tag",
            &stripe::due(&five, 65_536, 1, 0)[2..],
            &[0x80, 7, 0, 4, 0, 0],
        )?;
        let largest = array(16, 268_435_456);
        self.due(
            "last block",
            largest.place(4_026_531_839),
            at(268_435_455, 14),
        )?;
        self.due("block past the last", largest.place(4_026_531_840), Err(3))?;
        let largest = array(16, MOST_STRIPES);
        self.due(
            "last block of all",
            largest.place(1_030_792_151_039),
            at(68_719_476_735, 14),
        )?;
        self.due("past it", largest.place(1_030_792_151_040), Err(3))?;
        self.due(
            "a stripe more",
            array(16, MOST_STRIPES + 1).place(0),
            Err(2),
        )?;
        self.due("2 members", array(2, 1).place(0), Err(1))?;
        self.due("17 members", array(17, 1).place(0), Err(1))
    }

    /// Rows of four in five members, two groups of them: worked by hand.
    fn rows(&mut self) -> Result<(), String> {
        let at = |stripe, member| Ok(Place { stripe, member });
        let five = in_rows(5, 8, 4);
        for (block, due) in [
            (0, at(0, 1)),
            (3, at(3, 1)),
            (4, at(0, 2)),
            (15, at(3, 4)),
            (16, at(4, 0)),
            (20, at(4, 2)),
            (31, at(7, 4)),
            (32, Err(3)),
        ] {
            self.due("place, in rows of 4", five.place(block), due)?;
        }
        let parity = |lowest| Ok(Owner::Parity { lowest });
        for (stripe, member, due) in [
            (0, 0, parity(0)),
            (3, 0, parity(3)),
            (4, 1, parity(16)),
            (7, 1, parity(19)),
            (7, 0, Ok(Owner::Data { block: 19 })),
            (8, 1, Err(3)),
        ] {
            let owner = five.owner(stripe, member);
            self.due("owner, in rows of 4", owner, due)?;
        }
        self.due(
            "the blocks of stripe 3",
            five.blocks_of(3),
            vec![3, 7, 11, 15],
        )?;
        self.due(
            "tag of the parity of stripe 7",
            &stripe::due(&five, 7, 1, 0)[2..],
            &[0x80, 7, 0, 0, 0, 19],
        )?;
        let largest = in_rows(16, MOST_STRIPES, 128);
        for (block, due) in [
            (1_920, at(128, 0)),
            (4_026_531_839, at(268_435_455, 14)),
            (1_030_792_151_038, at(68_719_476_734, 14)),
            (1_030_792_151_039, at(68_719_476_735, 14)),
            (1_030_792_151_040, Err(3)),
        ] {
            self.due("place, in rows of 128", largest.place(block), due)?;
        }
        let three = in_rows(3, 2, 2);
        let header = [
            0x00, 0x09, 0x03, 0x03, 0x07, 0x00, 0x00, 0x00, 0x02, 0x01, 0x02,
        ];
        self.due("header 3", &report::header(&three)[..], &header)?;
        let zeros = |stripe| {
            let (data, room) = ([0; 2 * DATA], [0; 3 * BLOCK]);
            stripe::seal(&three, stripe, &data, &room).expect("numbers that fit")
        };
        let image = [&header[..], &zeros(0), &zeros(1)].concat();
        self.due(
            "parity of stripe 1",
            &image[11 + 3 * BLOCK + 514..][..6],
            &[0x80, 7, 0, 0, 0, 1],
        )?;
        for (last, due) in [
            (
                2,
                "0 CLEAN\n1 CLEAN\nTOTAL 2 clean 2 bad 0 unchecked 0 torn 0\n",
            ),
            (
                1,
                "0 BAD 2 1 --R\n1 BAD 0 2 -AR\nTOTAL 2 clean 0 bad 2 unchecked 0 torn 0\n",
            ),
        ] {
            let mut image = image.clone();
            image[10] = last;
            let due = format!("SCRUB v1 members 3 stripes 2\n{due}");
            self.due("report, version 3", report::report(&image), due)?;
        }
        for length in 0..header.len() {
            let report = report::report(&header[..length]);
            self.due("short", report, String::from("REFUSED 10\n"))?;
        }
        Ok(())
    }

    /// A row length that is none, or does not divide the stripes, is refused after the method, and before all else.
    fn no_rows(&mut self) -> Result<(), String> {
        for row in [0, 3, 4, 5, 8, 128, 255] {
            let none = in_rows(3, 6, row);
            self.due("no row length", none.fits(), Err(13))?;
            let few = Array { members: 2, ..none };
            self.due("few members go first", few.fits(), Err(1))?;
            let far = Array { stripes: 0, ..none };
            self.due("no stripes go first", far.fits(), Err(2))?;
            let no_method = Array { method: 4, ..none };
            self.due("no method goes first", no_method.fits(), Err(12))?;
            self.due("a far block goes later", none.place(12), Err(13))?;
            self.due("a far stripe goes later", none.owner(6, 3), Err(13))?;
            let scrubbed = stripe::scrub(&none, 0, &[]);
            self.due("a wrong length goes later", scrubbed, Err(13))?;
            let started = scan::start(&none, 0, &[0; DATA]);
            self.due("start, no row length", started, Err(13))?;
            let state = Scan {
                members: 3,
                stripes: 6,
                method: 1,
                row,
                ..Scan::ZEROS
            };
            let finished = scan::finish(&state, &[0; DATA]);
            self.due("finish, no row length", finished, Err(4))?;
            let piece = scan::piece(&state, 3, &[], &[]);
            self.due("piece, no row length", piece, Err(4))?;
            let image = [&report::header_of(3, &none)[..], &sealed()].concat();
            let due = String::from("REFUSED 13\n");
            self.due("header, no row length", report::report(&image), due)?;
        }
        for row in [1, 2, 4, 8, 16, 32, 64, 128] {
            self.due("a row length", in_rows(3, 384, row).fits(), Ok(()))?;
        }
        Ok(())
    }

    fn sealed_stripe(&mut self) -> Result<(), String> {
        let three = array(3, 1);
        let sealed = sealed();
        self.due("parity", &sealed[508..DATA], &[0, 0, 0, 3])?;
        for (member, tag, numbers) in [
            (0, [0x17, 0x6E, 0x80, 7, 0, 0, 0, 0], [0x176E, 0x8007, 0]),
            (1, [0x8B, 0xB7, 0x00, 7, 0, 0, 0, 0], [0x8BB7, 0x0007, 0]),
            (2, [0x9C, 0xD9, 0x00, 7, 0, 0, 0, 1], [0x9CD9, 0x0007, 1]),
        ] {
            let block = &sealed[span(member)];
            self.due("tag", &block[DATA..], &tag)?;
            self.due(
                "check",
                stripe::check(&three, 0, member, block),
                Ok(Checked::Good(fields(numbers, numbers))),
            )?;
        }
        self.due(
            "scrub",
            stripe::scrub(&three, 0, &sealed),
            Ok(Verdict::Clean),
        )?;
        let updated = stripe::update(&three, 0, &[0; DATA], &sealed).expect("good blocks");
        self.due(
            "updated guards",
            stored_guards(&three.format(), &updated),
            vec![0x9CD9, 0, 0x9CD9],
        )?;
        self.due(
            "updated scrub",
            stripe::scrub(&three, 0, &updated),
            Ok(Verdict::Clean),
        )
    }

    fn report(&mut self) -> Result<(), String> {
        let header = [0x00, 0x07, 0x01, 0x03, 0x07, 0x00, 0x00, 0x00, 0x01];
        self.due("header", &report::header(&array(3, 1))[..], &header)?;
        self.due(
            "report",
            &report::report(&[&header[..], &sealed()].concat())[..],
            "SCRUB v1 members 3 stripes 1\n0 CLEAN\nTOTAL 1 clean 1 bad 0 unchecked 0 torn 0\n",
        )
    }

    fn torn_stripes(&mut self) -> Result<(), String> {
        let three = array(3, 1);
        for (ending, combination) in [([0x01, 0x8B, 0xB7], 0x0000), ([0x01, 0x8B, 0xB6], 0x8BB7)] {
            let mut parity = [0; DATA];
            parity[DATA - 3..].copy_from_slice(&ending);
            let data = [parity, [0; DATA], [0; DATA]];
            let guards = data.map(|data| guard(&data));
            let tagged = |member: usize| {
                let (data, guard) = (&data[member], guards[member].into());
                stripe::tagged(&three, 0, member, data, guard)
            };
            let bytes: Vec<u8> = (0..3).flat_map(tagged).collect();
            let quick = stripe::quick_scrub(&guards);
            self.due(
                "scrub",
                stripe::scrub(&three, 0, &bytes),
                Ok(Verdict::Torn { place: 509 }),
            )?;
            self.due("quick scrub", quick, Ok(combination))?;
            let mut lost = bytes.clone();
            lost[span(1)].fill(0);
            let rebuilt = stripe::rebuild(&three, 0, 1, &lost).expect("good blocks");
            self.due("rebuilt, torn", &rebuilt[span(1)][DATA - 3..DATA], &ending)?;
            self.due(
                "its scrub",
                stripe::scrub(&three, 0, &rebuilt),
                Ok(Verdict::Clean),
            )?;
        }
        Ok(())
    }

    /// The sealed stripe with block 0 marked as not to be checked, its data ending in FEh.
    fn marked_stripe(&mut self) -> Result<(), String> {
        let three = array(3, 1);
        let mut bytes = sealed();
        let block = &mut bytes[span(1)];
        block[DATA - 1] = 0xFE;
        block[514..516].fill(0xFF);
        let said = stripe::check(&three, 0, 1, &bytes[span(1)]);
        self.due("check, marked", said, Ok(Checked::Unchecked))?;
        let unchecked = Verdict::Unchecked {
            member: 1,
            count: 1,
        };
        let scrubbed = stripe::scrub(&three, 0, &bytes);
        self.due("scrub, marked", scrubbed, Ok(unchecked))?;
        let read = stripe::read(&three, 0, &bytes, &[0; DATA]).expect("it is copied");
        self.due("read, marked", read.source, Source::Unchecked)?;
        self.due("its last byte", read.data[DATA - 1], 0xFE)?;
        let updated = stripe::update(&three, 0, &[0; DATA], &bytes);
        self.due("update, marked", updated, Err(9))?;
        let updated = stripe::update(&three, 1, &[0; DATA], &bytes);
        self.due("update beside", updated.map(|_| ()), Ok(()))?;
        for member in [0, 2] {
            let rebuilt = stripe::rebuild(&three, 0, member, &bytes);
            self.due("rebuild from it", rebuilt, Err(9))?;
        }
        let rebuilt = stripe::rebuild(&three, 0, 1, &bytes);
        self.due("rebuild, marked", rebuilt, Ok(sealed()))?;
        let image = [&report::header(&three)[..], &bytes].concat();
        self.due(
            "report, marked",
            &report::report(&image)[..],
            "SCRUB v1 members 3 stripes 1\n0 UNCHECKED 1 1\nTOTAL 1 clean 0 bad 0 unchecked 1 torn 0\n",
        )?;
        bytes[span(2)][0] ^= 1;
        let bad = Verdict::Bad {
            member: 2,
            count: 1,
            fits: Fits {
                guard: false,
                ..Fits::ALL
            },
        };
        let scrubbed = stripe::scrub(&three, 0, &bytes);
        self.due("scrub, another bad", scrubbed, Ok(bad))?;
        let read = stripe::read(&three, 1, &bytes, &[0; DATA]);
        self.due("read of that one", read, Err(9))
    }

    /// The sealed stripe with its blocks on other members, or its last byte changed: what is found and expected, and the letters.
    fn faults(&mut self) -> Result<(), String> {
        const PARITY: [u64; 3] = [0x176E, 0x8007, 0];
        const BLOCKS: [[u64; 3]; 2] = [[0x8BB7, 0x0007, 0], [0x9CD9, 0x0007, 1]];
        let three = array(3, 1);
        let rows = [
            (
                "blocks exchanged",
                [0, 2, 1],
                1,
                BLOCKS[1],
                [0x9CD9, 7, 0],
                "1 2 --R",
            ),
            (
                "block 0 and parity exchanged",
                [1, 0, 2],
                0,
                BLOCKS[0],
                [0x8BB7, 0x8007, 0],
                "0 2 -A-",
            ),
            (
                "block 1 and parity exchanged",
                [2, 1, 0],
                0,
                BLOCKS[1],
                [0x9CD9, 0x8007, 0],
                "0 2 -AR",
            ),
            (
                "the parity on all members",
                [0, 0, 0],
                1,
                PARITY,
                [0x176E, 7, 0],
                "1 2 -A-",
            ),
        ];
        for (what, from, member, found, expected, line) in rows {
            let sealed = sealed();
            let bytes = from.map(|member| &sealed[span(member)]).concat();
            let said = stripe::check(&three, 0, member, &bytes[span(member)]);
            self.due(what, said, Ok(Checked::Bad(fields(found, expected))))?;
            self.bad_line(what, &bytes, line)?;
        }
        let mut bytes = sealed();
        bytes[span(1)][DATA - 1] = 3;
        let said = stripe::check(&three, 0, 1, &bytes[span(1)]);
        let expected = fields(BLOCKS[0], [0x176E, 0x0007, 0]);
        self.due("last byte changed", said, Ok(Checked::Bad(expected)))?;
        self.bad_line("last byte changed", &bytes, "1 1 G--")?;
        bytes.fill(1);
        self.bad_line("all bytes 01", &bytes, "0 3 GAR")
    }

    /// The report on the bench's stripe, damaged.
    fn bad_line(&mut self, what: &str, bytes: &[u8], line: &str) -> Result<(), String> {
        let image = [&report::header(&array(3, 1))[..], bytes].concat();
        let due = format!(
            "SCRUB v1 members 3 stripes 1\n0 BAD {line}\nTOTAL 1 clean 0 bad 1 unchecked 0 torn 0\n"
        );
        self.due(what, report::report(&image), due)
    }

    fn pieces(&mut self) -> Result<(), String> {
        let mut history = History::open(array(3, 1), 0);
        let sealed = sealed();
        self.due("finish too early", history.finish(), Err(8))?;
        self.due("piece of 520", history.piece(1, &sealed[span(1)]), Ok(()))?;
        self.due("then of 1", history.piece(1, &[0]), Err(7))?;
        self.due("then of 0", history.piece(1, &[]), Ok(()))?;
        self.due("piece for member 3", history.piece(3, &[]), Err(5))?;
        for byte in &sealed[..BLOCK] {
            self.due("piece of 1", history.piece(0, &[*byte]), Ok(()))?;
        }
        self.due("last piece", history.piece(2, &sealed[span(2)]), Ok(()))?;
        self.due("finish", history.finish(), Ok(Verdict::Clean))
    }
}

fn array(members: usize, stripes: u64) -> Array {
    Array {
        members,
        stripes,
        volume: 7,
        method: 1,
        row: 1,
    }
}

/// The same array in rows of this length.
fn in_rows(members: usize, stripes: u64, row: u8) -> Array {
    Array {
        row,
        ..array(members, stripes)
    }
}

/// The same array, its guards checksums.
fn summed(members: usize, stripes: u64) -> Array {
    Array {
        method: 2,
        ..array(members, stripes)
    }
}

/// The same array, its blocks large.
fn large(members: usize, stripes: u64) -> Array {
    Array {
        method: 3,
        ..array(members, stripes)
    }
}

/// The checksum by single bytes, and the byte that waits.
fn by_bytes(bytes: &[u8]) -> (u16, Option<u8>) {
    let start = Sum {
        value: START,
        waiting: None,
    };
    let sum = bytes.iter().fold(start, |sum, byte| sum.go_on(*byte));
    (sum.value, sum.waiting)
}

/// Guard, application tag and reference tag as found and as expected.
fn fields(found: [u64; 3], expected: [u64; 3]) -> Fields {
    let field = |at| Field {
        found: found[at],
        expected: expected[at],
    };
    Fields {
        guard: field(0),
        application: field(1),
        reference: field(2),
    }
}

/// The bench's stripe: zeros, but for the last bytes 01 and 02.
fn sealed() -> Vec<u8> {
    sealed_in(&array(3, 1))
}

fn sealed_in(array: &Array) -> Vec<u8> {
    let length = array.format().data;
    let mut data = vec![0; 2 * length];
    data[length - 1] = 1;
    data[2 * length - 1] = 2;
    let room = vec![0; array.stripe_length()];
    stripe::seal(array, 0, &data, &room).expect("numbers that fit")
}

/// The code that document 000 suggests for a block, carries wrapped after every eight words, with its shift as it is meant.
fn suggested(block: &[u8]) -> u16 {
    let mut sum: u32 = 0xFFFF;
    for eight in block.chunks(16) {
        for word in eight.chunks(2) {
            sum = (sum << 1) + u32::from(word[0]) * 256 + u32::from(word[1]);
        }
        sum = (sum & 0xFFFF) + (sum >> 16);
    }
    ((sum & 0xFFFF) + (sum >> 16)) as u16
}

pub fn check(random: &mut Random) -> Result<String, String> {
    let mut figures = Figures { right: 0 };
    figures.guards()?;
    figures.checksums(random)?;
    figures.methods()?;
    figures.summed_stripe()?;
    figures.torn_guards()?;
    figures.summed_pieces()?;
    figures.large_stripe()?;
    figures.large_faults()?;
    figures.large_torn()?;
    figures.large_pieces()?;
    figures.joins()?;
    figures.places()?;
    figures.rows()?;
    figures.no_rows()?;
    figures.sealed_stripe()?;
    figures.report()?;
    figures.torn_stripes()?;
    figures.marked_stripe()?;
    figures.faults()?;
    figures.pieces()?;
    Ok(format!("{} right in the model itself", figures.right))
}
