//! The converter held to a plain reading of the old rules, and what the guard says of old and new images.

mod numbers;
mod origins;

use forms::names::is_under;
use forms::policy::{Context, Gid, NameMatcher, OwnRule, Policy, Uid, Verdict};
use forms::{image, policy_text};
use numbers::Numbers;
use origins::origins;
use tool::converter::retire;
use tool::guard::{Guard, BY_RULE};
use tool::retire::names::{bytes, read, Listed};
use tool::retire::plan::{check, plan, size, Fate};

fn policy_of(text: &str) -> Policy {
    policy_text::parse(text).expect("good text").policy
}

fn image_of(policy: &Policy) -> Vec<u8> {
    image::write(policy).expect("it has an image")
}

const NAMES: [&str; 8] =
    ["a.b", "a.b.c", "a.b.c.d", "a.bc", "a.b-c.d", "x.y", "x.y.z", "org.freedesktop.DBus"];
const ACCOUNTS: [(u32, &[u32]); 5] = [(7, &[]), (8, &[5]), (9, &[5, 6]), (9, &[6]), (9, &[])];

fn policy(numbers: &mut Numbers) -> Policy {
    let contexts = ["default", "group 5", "group 6", "user 7", "user 8", "mandatory"];
    let mut rule = || {
        let matcher = match numbers.below(5) {
            0 => "any".to_string(),
            1 => format!("name {}", NAMES[numbers.below(7)]),
            _ => format!("prefix {}", NAMES[numbers.below(7)]),
        };
        format!("own {} {} {matcher}\n", contexts[numbers.below(6)], ["allow", "deny"][numbers.below(2)])
    };
    let own: String = (0..6).map(|_| rule()).collect();
    policy_of(&format!(
        "connect default allow gid 2\nconnect default allow any\n{own}transaction default allow send any"
    ))
}

/// A few of the names, each once, in any order.
fn list(numbers: &mut Numbers) -> Vec<Listed> {
    let mut left = NAMES.to_vec();
    let count = numbers.below(NAMES.len() + 1);
    let taken: Vec<&str> = (0..count).map(|_| left.remove(numbers.below(left.len()))).collect();
    read(&taken.join("\n"))
}

/// The rule that decides about a name: of those that match the highest context, and of these the last.
fn decider(policy: &Policy, uid: u32, gids: &[u32], name: &str) -> Option<usize> {
    let matches = |rule: &OwnRule| {
        let is_about = match rule.context {
            Context::Default | Context::Mandatory => true,
            Context::Group(gid) => gids.contains(&gid.0),
            Context::User(user) => user.0 == uid,
        };
        is_about
            && match &rule.name {
                NameMatcher::Any => true,
                NameMatcher::Name(other) => other == name,
                NameMatcher::Prefix(prefix) => is_under(name, prefix),
            }
    };
    let matching = (0..policy.own.len()).filter(|&position| matches(&policy.own[position]));
    matching.max_by_key(|&position| (policy.own[position].context.rank(), position))
}

/// The guard's answer under an image, and the old rule behind it.
fn asked(image: &[u8], origins: &[usize], (uid, gids): (u32, &[u32]), name: &str) -> (bool, Option<usize>) {
    let mut guard = Guard::new();
    let gids: Vec<Gid> = gids.iter().map(|&gid| Gid(gid)).collect();
    let peer = guard.connect(image, Uid(uid), &gids).value;
    let place = guard.own(image, peer, name.as_bytes());
    assert!(matches!(place.answer, 0 | 32), "{}", place.answer);
    (place.answer == 0, (place.decider == BY_RULE).then(|| origins[place.position as usize]))
}

/// Every listed name is decided by the same rule as before, for everybody; and the rules are just those of the plan.
#[test]
fn verdicts_of_listed_names_stay() {
    let (mut numbers, mut became, mut denied) = (Numbers(11), 0, 0);
    for _ in 0..2_000 {
        let (old, listed) = (policy(&mut numbers), list(&mut numbers));
        let new = retire(&image_of(&old), &bytes(&listed)).expect("it is converted");
        let plan = plan(&old, &listed);
        assert_eq!(check(&new, &plan), Ok(()), "{}", policy_text::show(&old));
        assert_eq!(new.len(), size(&old, image_of(&old).len(), &listed).bytes);
        let origins = origins(&plan);
        // The bus's own name is never asked about: the guard refuses it before the rules.
        for Listed { name, .. } in listed.iter().filter(|listed| listed.name != NAMES[7]) {
            for (uid, gids) in ACCOUNTS {
                let by = decider(&old, uid, gids, name);
                let wanted = by.is_some_and(|position| old.own[position].verdict == Verdict::Allow);
                let before = asked(&image_of(&old), &[0, 1, 2, 3, 4, 5], (uid, gids), name);
                assert_eq!(before, (wanted, by), "{name} of {uid} {gids:?}\n{}", policy_text::show(&old));
                let found = asked(&new, &origins, (uid, gids), name);
                assert_eq!(found, (wanted, by), "{name} of {uid} {gids:?}\n{}", policy_text::show(&old));
                became += usize::from(by.is_some_and(|by| matches!(plan.fates[by], Fate::Becomes(..))));
                denied += usize::from(!wanted);
            }
        }
    }
    assert!(became > 5_000 && denied > 5_000, "{became} {denied}");
}

/// Without rules for prefixes nothing is changed, whatever is listed.
#[test]
fn images_without_prefixes_stay_byte_for_byte() {
    let old =
        image_of(&policy_of("connect default allow gid 2\nown user 7 deny name a.b\nown default allow any"));
    assert_eq!(retire(&old, &bytes(&read("a.b\nx.y"))), Ok(old.clone()));
    assert_eq!(retire(&old, b""), Ok(old.clone()));
    // The list is looked at all the same, and behind the image.
    assert_eq!(retire(&old, b"\x03a.b\x03a.b"), Err(54));
    assert_eq!(retire(&old, b"\x03a."), Err(54));
    assert_eq!(retire(&old[1..], b"\x03a."), Err(50));
}

fn many(count: usize) -> Vec<Listed> {
    read(&(0..count).map(|number| format!("a.b.c{number}\n")).collect::<String>())
}

/// The tool's own sizes are the converter's at each limit.
#[test]
fn limits() {
    let old = policy_of("own default allow prefix a.b\nown default allow any");
    let bytes_of = |listed: &[Listed]| retire(&image_of(&old), &bytes(listed));
    let sized = |listed: &[Listed]| size(&old, image_of(&old).len(), listed);
    assert_eq!(sized(&many(255)).own_rules, 256);
    assert_eq!(bytes_of(&many(255)).map(|new| new.len()), Ok(sized(&many(255)).bytes));
    assert_eq!((sized(&many(256)).own_rules, bytes_of(&many(256))), (257, Err(53)));
    // Names of 255 bytes but for the last, with which the image is as long as it may be.
    let long = |number: usize, length: usize| format!("a.b.{}{number:03}\n", "x".repeat(length - 7));
    let front: String = (0..240).map(|number| long(number, 255)).collect();
    let left = 65_536 - sized(&read(&front)).bytes;
    let count = left.div_ceil(16 + 255);
    let middle: String = (240..239 + count).map(|number| long(number, 255)).collect();
    let last = 65_536 - sized(&read(&format!("{front}{middle}"))).bytes - 16;
    let full = |last: usize| read(&format!("{front}{middle}{}", long(999, last)));
    assert_eq!(sized(&full(last)).bytes, 65_536);
    assert_eq!(bytes_of(&full(last)).map(|new| new.len()), Ok(65_536));
    assert_eq!((sized(&full(last + 1)).bytes, bytes_of(&full(last + 1))), (65_537, Err(53)));
}
