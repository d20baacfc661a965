//! The generator: a seed means one capture, and both tellings of a stream agree.

use second::capture;
use second::coverage::Coverage;
use second::generate::random::Random;
use second::generate::{generate, generate_pair, spelling, Mode};
use second::guard::Guard;
use second::name_cases;
use second::name_forms::Form;
use second::replay::{replay, replay_in_batches};
use second::unknown_cases;

#[test]
fn a_seed_means_one_capture() {
    for mode in [Mode::Mixed, Mode::Full, Mode::BadImage, Mode::BadLayout, Mode::Batches] {
        for seed in 0..20 {
            assert!(generate(seed, 100, mode) == generate(seed, 100, mode));
        }
        assert!(generate(1, 100, mode) != generate(2, 100, mode));
    }
    assert!(generate_pair(1, 50) == generate_pair(1, 50));
}

#[test]
fn layouts() {
    for seed in 0..50 {
        let file = generate(seed, 100, Mode::Mixed);
        let reading = capture::read(&file);
        assert!(reading.is_whole);
        assert!(capture::write(&reading.capture) == file);
        assert!(replay(&generate(seed, 100, Mode::BadLayout)).ends_with("bad capture\n"));
    }
}

/// The lines that may not depend on where pieces are cut, without their taken counts.
fn verdicts(file: &[u8]) -> Vec<String> {
    let keep = |line: &str| {
        let words: Vec<&str> = line.split(' ').collect();
        match words.as_slice() {
            ["piece", answer, _, receiver @ ..] => {
                let number: u32 = answer.parse().expect("a number");
                matches!(number, 0..=9 | 20..=26).then(|| format!("{number} {}", receiver.join(" ")))
            }
            _ => Some(line.to_string()),
        }
    };
    replay(file).lines().filter_map(keep).collect()
}

#[test]
fn pieces_may_be_cut_anywhere() {
    let mut differently_cut = 0;
    for seed in 0..40 {
        let (whole, split) = generate_pair(seed, 100);
        assert_eq!(verdicts(&whole), verdicts(&split), "seed {seed}");
        differently_cut += usize::from(whole != split);
    }
    // Where a policy lets nobody connect, there is nothing to cut.
    assert!(differently_cut > 30);
}

/// The guard at the end of a capture.
fn guard_after(file: &[u8]) -> Guard {
    let reading = capture::read(file);
    let policy = second::replay::lent_policy(&reading.capture.image);
    let mut guard = Guard::default();
    for call in &reading.capture.calls {
        second::replay::run(&mut guard, policy.as_ref(), call);
    }
    guard
}

/// Most captures end with a talk, which makes room again; a few end with a guard just filled.
#[test]
fn a_full_guard() {
    let is_full = |guard: &Guard| guard.peers().count() == 16 && guard.waits().len() == 256;
    let full: Vec<Guard> =
        (1..=30).map(|seed| guard_after(&generate(seed, 1, Mode::Full))).filter(is_full).collect();
    assert!(!full.is_empty());
    for peer in full.iter().flat_map(Guard::peers) {
        assert_eq!((peer.gids.len(), peer.names.len(), peer.stream.count()), (16, 4, 2_047));
    }
}

/// Good names use every character of their form, and the bad ones of all forms every byte; of
/// a bad name only one kind of thing is wrong.
#[test]
fn spelled_names() {
    let mut random = Random::new(1);
    let mut in_bad = [false; 256];
    for form in Form::ALL {
        let mut in_good = [false; 256];
        for _ in 0..3000 {
            let good = spelling::good(&mut random, form);
            assert!(form.is_kept_by(good.as_bytes()), "{good}");
            good.bytes().for_each(|byte| in_good[usize::from(byte)] = true);
            let bad = spelling::bad(&mut random, form);
            let text = String::from_utf8_lossy(&bad);
            assert!(name_cases::of_text(8, form, &bad).is_some(), "{form:?} {text}");
            bad.iter().for_each(|byte| in_bad[usize::from(*byte)] = true);
        }
        for byte in 0..=255 {
            let may_stand = [form.mark(), form.separator()].contains(&Some(byte)) || form.is_character(byte);
            assert_eq!(in_good[usize::from(byte)], may_stand, "{form:?} {byte}");
        }
    }
    assert_eq!(in_bad, [true; 256]);
}

/// Unknown header fields, good and broken ones, come in each kind of capture that is about messages.
#[test]
fn unknown_fields_in_each_mode() {
    let pairs = (1..=60).flat_map(|seed| <[_; 2]>::from(generate_pair(seed, 120)));
    let full = (1..=30).map(|seed| generate(seed, 1500, Mode::Full));
    let mixed = (1..=20).map(|seed| generate(seed, 1200, Mode::Mixed));
    for files in [pairs.collect::<Vec<_>>(), full.collect(), mixed.collect()] {
        let mut coverage = Coverage::default();
        files.iter().for_each(|file| coverage.add(file));
        let never = coverage.never();
        assert!(!never.iter().any(|case| unknown_cases::cases().contains(case)), "{never:?}");
    }
}

/// The longest pieces have about as many messages as they are meant to have.
#[test]
fn pieces_of_many_messages() {
    let files: Vec<Vec<u8>> = (1..=30).map(|seed| generate(seed, 100, Mode::Batches)).collect();
    let most_places = |file: &Vec<u8>| {
        let lines = replay_in_batches(file, 4096);
        let written = |line: &str| line.strip_prefix("batch ")?.split(' ').next()?.parse::<usize>().ok();
        lines.lines().filter_map(written).max().unwrap_or(0)
    };
    let most = files.iter().map(most_places).max();
    assert!(most.is_some_and(|most| (78..=82).contains(&most)), "{most:?}");
    assert!(files.iter().all(|file| capture::read(file).is_whole));
}

/// That cutting changes nothing of what messages show is seen only where they show all there is.
#[test]
fn pairs_show_rules() {
    let mut coverage = Coverage::default();
    for seed in 1..=89 {
        let (whole, split) = generate_pair(seed, 120);
        coverage.add(&whole);
        coverage.add(&split);
    }
    let is_shown = |case: &String| case.starts_with("shown ") && case.contains(", piece ");
    let never: Vec<String> = coverage.never().into_iter().filter(is_shown).collect();
    assert_eq!(never, ["shown nothing, piece 50"]);
}

#[test]
fn every_answer_is_reached() {
    let mut coverage = Coverage::default();
    for seed in 1..=60 {
        coverage.add(&generate(seed, 1200, Mode::Mixed));
    }
    for seed in 1..=500 {
        coverage.add(&generate(seed, 20, Mode::BadImage));
    }
    coverage.add(&generate(1, 100, Mode::BadLayout));
    for seed in 1..=60 {
        coverage.add_batches(&generate(seed, 100, Mode::Batches));
    }
    assert_eq!(coverage.never(), Vec::<String>::new());
}
