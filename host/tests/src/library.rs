//! The library's calls, with the independent reader's types.

use crate::lent::Lent;
use crate::program;
use luffinarc::calls::{self, Answer, Entries};
use luffinarc_reader::{Calls, Checked, PairRefusal, Profile, Read, Refusal, Token};

/// What stands in an answer array before a call, so that a place that is not written is seen.
const OLD: Answer = [0xDEAD_BEEF_0BAD_CAFE; 4];

/// What stands in a profile's arrays before a call.
const OLD_POINTS: Entries = [0x0BAD_0BAD; luffinarc::MAX_ENTRIES];
const OLD_ROLES: Entries = [0x0BAD_CAFE; luffinarc::MAX_ENTRIES];

/// The refusal with this number; what it does not carry is zero.
fn refusal(number: u32, carried: [u64; 2]) -> Refusal {
    let refusal = Refusal::named(number, carried);
    let refusal = refusal.unwrap_or_else(|| panic!("the library answers {number}"));
    let rest = &carried[refusal.carried().len()..];
    assert!(rest.iter().all(|&value| value == 0), "{refusal} carries {carried:?}");
    refusal
}

/// The first so many numbers of an answer, the rest of which is zero, or the refusal.
fn values<const N: usize>(number: u32, answer: Answer) -> Result<[u64; N], Refusal> {
    let used = if number == 0 { N } else { 2 };
    assert!(answer[used..].iter().all(|&value| value == 0), "{number} {answer:?}");
    if number == 0 {
        Ok(answer[..N].try_into().unwrap())
    } else {
        Err(refusal(number, [answer[0], answer[1]]))
    }
}

/// The same of a call on two images, whose refusal tells at index 2 of the answer which image it is of.
fn pair_values<const N: usize>(number: u32, answer: Answer) -> Result<[u64; N], PairRefusal> {
    let which = if number == 0 { 0 } else { answer[2] };
    let told = if which == 0 { answer } else { [answer[0], answer[1], 0, answer[3]] };
    values(number, told).map_err(|refusal| match which {
        0 => PairRefusal::Pair(refusal),
        1 => PairRefusal::Older(refusal),
        2 => PairRefusal::Newer(refusal),
        _ => panic!("the answer tells of image {which}"),
    })
}

/// The arrays of a profile, lent to a call.
struct Arrays {
    points: Lent<u32>,
    roles: Lent<u32>,
}

impl Arrays {
    fn new(points: &Entries, roles: &Entries) -> Arrays {
        Arrays { points: Lent::new(points, 0xAA), roles: Lent::new(roles, 0xAA) }
    }

    fn both(&mut self) -> (&mut Entries, &mut Entries) {
        let (points, roles) = (self.points.slice_mut(), self.roles.slice_mut());
        (points.try_into().unwrap(), roles.try_into().unwrap())
    }

    /// The profile that a call gave; after a refusal the arrays are as they were.
    fn profile(self, number: u32, answer: Answer) -> Profile {
        let mut profile = Profile { used: answer[2] as u32, ..Profile::of(&[]) };
        self.points.back(&mut profile.points);
        self.roles.back(&mut profile.roles);
        if number != 0 {
            let same = profile.points == OLD_POINTS && profile.roles == OLD_ROLES;
            assert!(same, "a refused call changes nothing");
        }
        profile
    }

    /// The arrays are as they were.
    fn same(self) {
        self.points.same();
        self.roles.same();
    }
}

/// Whether the call with this result accepted the image: 1 to 4 are the refusals of an image. It is then made again as
/// a call on a checked image, which is safe.
fn accepted(number: u32) -> bool {
    !(1..=4).contains(&number)
}

/// A call that writes a list of a text, and the same on a checked image.
type Listing = fn(&[u8], &[u8], &mut [u32], &mut Answer) -> u32;
type CheckedListing = unsafe fn(&[u8], &[u8], &mut [u32], &mut Answer) -> u32;

/// Lists a text in the lent words by both calls, and gives the number of records.
fn listed(
    list: Listing,
    list_checked: CheckedListing,
    image: &[u8],
    text: &[u8],
    words: &mut [u32],
) -> Result<usize, Refusal> {
    let (image, text) = (Lent::new(image, 0xAA), Lent::new(text, 0xAA));
    let (mut lent, mut answer) = (Lent::new(words, 0xAA), OLD);
    let number = list(image.slice(), text.slice(), lent.slice_mut(), &mut answer);
    if accepted(number) {
        let (mut other, mut again) = (Lent::new(words, 0xAA), OLD);
        let (image, text) = (image.slice(), text.slice());
        let same = unsafe { list_checked(image, text, other.slice_mut(), &mut again) };
        assert_eq!((same, again), (number, answer));
        assert!(other.slice() == lent.slice());
        other.back(words);
    }
    image.same();
    text.same();
    lent.back(words);
    let [count] = values(number, answer)?;
    Ok(count as usize)
}

/// The calls of the static library that take any image. Where it is accepted, the calls on a checked image give the
/// same.
pub struct Library;

impl Calls for Library {
    fn check(&self, image: &[u8]) -> Result<Checked, Refusal> {
        let image = Lent::new(image, 0xAA);
        let (mut arrays, mut answer) = (Arrays::new(&OLD_POINTS, &OLD_ROLES), OLD);
        let (points, roles) = arrays.both();
        let number = calls::check(image.slice(), points, roles, &mut answer);
        image.same();
        let profile = arrays.profile(number, answer);
        let [version, ranges, entries] = values(number, answer)?;
        let rest = entries as usize..;
        let mut past = profile.points[rest.clone()].iter().chain(&profile.roles[rest]);
        assert!(past.all(|&number| number == 0), "entries past the profile are zero");
        Ok(Checked { version: version as u32, ranges: ranges as usize, entries: entries as usize })
    }

    fn read(&self, image: &[u8], words: &mut [u32]) -> Result<Read, Refusal> {
        let (image, mut lent) = (Lent::new(image, 0xAA), Lent::new(words, 0xAA));
        let (mut arrays, mut answer) = (Arrays::new(&OLD_POINTS, &OLD_ROLES), OLD);
        let (points, roles) = arrays.both();
        let number = calls::read(image.slice(), lent.slice_mut(), points, roles, &mut answer);
        image.same();
        lent.back(words);
        let profile = arrays.profile(number, answer);
        let [version, ranges, _] = values(number, answer)?;
        Ok(Read { version: version as u32, ranges: ranges as usize, profile })
    }

    fn write(
        &self,
        version: u32,
        words: &[u32],
        profile: &Profile,
        out: &mut [u8],
    ) -> Result<usize, Refusal> {
        let (words, mut lent) = (Lent::new(words, 0xAA), Lent::new(out, 0xAA));
        let mut arrays = Arrays::new(&profile.points, &profile.roles);
        let (points, roles) = arrays.both();
        let (used, mut answer) = (profile.used as usize, OLD);
        let number = calls::write(
            version,
            words.slice(),
            points,
            roles,
            used,
            lent.slice_mut(),
            &mut answer,
        );
        words.same();
        arrays.same();
        lent.back(out);
        let [total] = values(number, answer)?;
        Ok(total as usize)
    }

    fn lookup(&self, image: &[u8], number: u32) -> Result<(u32, u32), Refusal> {
        let image = Lent::new(image, 0xAA);
        let mut answer = OLD;
        let refused = calls::lookup(image.slice(), number, &mut answer);
        if accepted(refused) {
            let mut again = OLD;
            let number = unsafe { calls::lookup_checked(image.slice(), number, &mut again) };
            assert_eq!((number, again), (refused, answer));
        }
        image.same();
        let [class, looked] = values(refused, answer)?;
        Ok((class as u32, looked as u32))
    }

    fn pair(&self, older: &[u8], newer: &[u8]) -> Result<(), PairRefusal> {
        let (older, newer) = (Lent::new(older, 0xAA), Lent::new(newer, 0xAA));
        let mut answer = OLD;
        let number = calls::pair(older.slice(), newer.slice(), &mut answer);
        older.same();
        newer.same();
        let [] = pair_values(number, answer)?;
        Ok(())
    }

    fn changes(
        &self,
        older: &[u8],
        newer: &[u8],
        runs: &mut [u32],
        entries: &mut [u32],
    ) -> Result<(usize, usize), PairRefusal> {
        let (older, newer) = (Lent::new(older, 0xAA), Lent::new(newer, 0xAA));
        let (mut lent_runs, mut lent_entries) = (Lent::new(runs, 0xAA), Lent::new(entries, 0xAA));
        let (of_runs, of_entries) = (lent_runs.slice_mut(), lent_entries.slice_mut());
        let mut answer = OLD;
        let number = calls::changes(older.slice(), newer.slice(), of_runs, of_entries, &mut answer);
        older.same();
        newer.same();
        lent_runs.back(runs);
        lent_entries.back(entries);
        let [run_count, entry_count] = pair_values(number, answer)?;
        Ok((run_count as usize, entry_count as usize))
    }

    fn count(&self, image: &[u8], text: &[u8]) -> Result<usize, Refusal> {
        let (image, text) = (Lent::new(image, 0xAA), Lent::new(text, 0xAA));
        let mut answer = OLD;
        let number = calls::count(image.slice(), text.slice(), &mut answer);
        if accepted(number) {
            let mut again = OLD;
            let same = unsafe { calls::count_checked(image.slice(), text.slice(), &mut again) };
            assert_eq!((same, again), (number, answer));
        }
        image.same();
        text.same();
        let [count] = values(number, answer)?;
        Ok(count as usize)
    }

    fn list(&self, image: &[u8], text: &[u8], words: &mut [u32]) -> Result<usize, Refusal> {
        listed(calls::list, calls::list_checked, image, text, words)
    }

    fn at(&self, image: &[u8], text: &[u8], place: usize) -> Result<Option<Token>, Refusal> {
        let (image, text) = (Lent::new(image, 0xAA), Lent::new(text, 0xAA));
        let mut answer = OLD;
        let number = calls::token(image.slice(), text.slice(), place, &mut answer);
        if accepted(number) {
            let mut again = OLD;
            let same =
                unsafe { calls::token_checked(image.slice(), text.slice(), place, &mut again) };
            assert_eq!((same, again), (number, answer));
        }
        image.same();
        text.same();
        if number == calls::DONE {
            assert_eq!(answer, [0; 4]);
            return Ok(None);
        }
        let [kind, start, end] = values(number, answer)?;
        Ok(Some(Token { kind: kind as u32, start: start as usize, end: end as usize }))
    }

    fn part<'a>(&self, text: &'a [u8], start: usize, end: usize) -> Result<&'a [u8], Refusal> {
        let mut answer = OLD;
        let number = calls::part(text, start, end, &mut answer);
        let [first, length] = values(number, answer)?;
        Ok(&text[first as usize..][..length as usize])
    }

    fn hashtags(&self, image: &[u8], text: &[u8], words: &mut [u32]) -> Result<usize, Refusal> {
        listed(calls::hashtags, calls::hashtags_checked, image, text, words)
    }

    fn lister(&self, input: &[u8]) -> Option<String> {
        Some(program::run("lister", input))
    }

    fn change_lister(&self, input: &[u8]) -> Option<String> {
        Some(program::run("change_lister", input))
    }
}
