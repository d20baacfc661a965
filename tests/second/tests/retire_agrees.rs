//! Generated conversions: the new image decides as the old one did, and comes to what was reckoned.

use second::conversion_cases::ConversionCoverage;
use second::conversions::{self, Conversion, FILLING};
use second::convert::{retire, Converted};
use second::generate::conversions::generate;
use second::image;
use second::policy::{Credentials, Decision, Gid, OwnRule, Policy, Uid};
use second::reckoning::{covered_by, read_list, reckon};

const IDS: [u32; 7] = [0, 5, 6, 77, 1000, 1001, u32::MAX];

/// Every uid with no group, with each one, and with several.
fn peers() -> Vec<(Uid, Vec<Gid>)> {
    let mut groups: Vec<Vec<Gid>> = IDS.iter().map(|&gid| vec![Gid(gid)]).collect();
    groups.extend([Vec::new(), vec![Gid(5), Gid(1000)], vec![Gid(u32::MAX), Gid(0), Gid(6)]]);
    IDS.iter().flat_map(|&uid| groups.iter().map(move |gids| (Uid(uid), gids.clone()))).collect()
}

/// The conversions of several seeds, each with the room behind its call.
fn generated() -> Vec<(Conversion, Converted, Vec<u8>)> {
    let files = (1..=40).map(|seed| generate(seed, 50));
    let conversions = files.flat_map(|file| conversions::read(&file).0);
    let call = |conversion: Conversion| {
        let mut room = vec![FILLING; conversion.room as usize];
        let converted = retire(&conversion.image, &conversion.list, &mut room);
        (conversion, converted, room)
    };
    conversions.map(call).collect()
}

/// Where the rules that stand for an old one are: from the first to behind the last.
fn blocks(old: &Policy, names: &[String]) -> Vec<(usize, usize)> {
    let mut next = 0;
    let mut block = |rule: &OwnRule| {
        let first = next;
        next += if rule.is_about_a_prefix() { covered_by(rule, names).len() } else { 1 };
        (first, next)
    };
    old.own.iter().map(&mut block).collect()
}

/// The rule that decides now must stand for the one that decided before, with its verdict.
fn agree(old: &Policy, new: &Policy, names: &[String]) {
    let blocks = blocks(old, names);
    for (uid, gids) in peers() {
        let who = Credentials { uid, gids: &gids };
        for name in names {
            match (old.own(who, name), new.own(who, name)) {
                (Decision::NoneMatched, Decision::NoneMatched) => {}
                (Decision::Rule { position, verdict }, Decision::Rule { position: place, verdict: now }) => {
                    let (first, end) = blocks[position];
                    assert!((first..end).contains(&place) && verdict == now, "{name}");
                }
                (before, now) => panic!("{name}: {before:?} became {now:?}"),
            }
        }
    }
}

#[test]
fn decisions_stay() {
    let mut changed = 0;
    for (conversion, converted, room) in generated() {
        if converted.answer.number() != 0 {
            continue;
        }
        let names = read_list(&conversion.list).names;
        let old = image::read(&conversion.image).expect("a bad image is refused");
        let new = image::read(&room[..converted.length]).expect("the new image is good");
        assert!(!new.own.iter().any(OwnRule::is_about_a_prefix));
        // The same rules at the same positions decide the same.
        assert!(old.connect == new.connect && old.transaction == new.transaction);
        changed += usize::from(old.own != new.own && !names.is_empty());
        agree(&old, &new, &names);
    }
    assert!(changed > 200, "{changed}");
}

#[test]
fn lengths_and_rooms() {
    for (conversion, converted, room) in generated() {
        let is_kept = |bytes: &[u8]| bytes.iter().all(|byte| *byte == FILLING);
        assert!(is_kept(&room[converted.length..]));
        let list = read_list(&conversion.list);
        let Ok(old) = image::read(&conversion.image) else {
            assert_eq!((converted.answer.number(), converted.length), (50, 0));
            continue;
        };
        let strings_at = u32::from_le_bytes([28, 29, 30, 31].map(|at| conversion.image[at])) as usize;
        let reckoned = reckon(&old, conversion.image.len() - strings_at, &list.names);
        let is_small = reckoned.own <= 256 && reckoned.length <= 65_536 && reckoned.length <= room.len();
        let expected = match (list.fault, is_small) {
            (Some(_), _) => (54, 0),
            (None, false) => (53, 0),
            (None, true) => (0, reckoned.length),
        };
        assert_eq!((converted.answer.number(), converted.length), expected);
        if !old.own.iter().any(OwnRule::is_about_a_prefix) {
            assert!(room[..converted.length] == conversion.image[..converted.length]);
        }
    }
}

#[test]
fn every_case_is_met() {
    let mut coverage = ConversionCoverage::default();
    for seed in 1..=40 {
        let file = generate(seed, 50);
        assert!(file == generate(seed, 50));
        assert!(coverage.add(&file));
    }
    assert_eq!(coverage.never(), Vec::<&str>::new());
}
