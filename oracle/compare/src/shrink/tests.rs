use super::*;

/// A list of numbers, which loses one or has one made smaller by 1.
impl Shrink for Vec<u32> {
    type Edit = (usize, bool);

    fn edits(&self) -> Vec<(usize, bool)> {
        let places = 0..self.len();
        let gone = places.clone().map(|place| (place, true));
        gone.chain(places.map(|place| (place, false))).collect()
    }

    fn edited(&self, (place, gone): &(usize, bool)) -> Option<Self> {
        let mut copy = self.clone();
        if *gone {
            copy.remove(*place);
        } else {
            copy[*place] = copy[*place].checked_sub(1)?;
        }
        Some(copy)
    }
}

const LONG: Duration = Duration::from_secs(60);

#[test]
fn what_is_left_has_nothing_to_lose() {
    let large = |list: &Vec<u32>| list.iter().filter(|number| **number >= 7).count() >= 2;
    let shrunk = shrink(vec![3, 9, 0, 8, 40, 1], large);
    assert_eq!(shrunk.case, [7, 7]);
    assert!(shrunk.is_least);
    let about = format!("made smaller in {} trials", shrunk.trials);
    assert_eq!(shrunk.about(), about);
}

#[test]
fn what_nothing_can_be_taken_from_stays() {
    let shrunk = shrink(vec![1, 2], |_| false);
    assert_eq!(shrunk.case, [1, 2]);
    assert_eq!(shrunk.trials, 4);
    let shrunk = shrink(Vec::new(), |_: &Vec<u32>| true);
    assert_eq!((shrunk.case.len(), shrunk.trials), (0, 0));
}

/// Each trial is one question, and what was found up to the bound is kept.
#[test]
fn trials_are_bounded() {
    let mut asked = 0;
    let shrunk = within(5, LONG, vec![1; 9], |_| {
        asked += 1;
        true
    });
    assert_eq!((asked, shrunk.trials), (5, 5));
    assert_eq!(shrunk.case, [1; 4]);
    assert!(!shrunk.is_least);
    assert_eq!(shrunk.about(), "made smaller as far as 5 trials went");
}

#[test]
fn time_is_bounded() {
    let shrunk = within(
        u64::MAX,
        Duration::from_millis(30),
        vec![1_000_000],
        |list| {
            std::thread::sleep(Duration::from_millis(1));
            !list.is_empty()
        },
    );
    assert!(!shrunk.is_least);
    assert!(shrunk.trials <= 31, "{}", shrunk.trials);
}

/// An edit that helps only after a later one is found by another sweep.
#[test]
fn sweeps_go_on_as_long_as_something_is_found() {
    let shrunk = shrink(vec![2, 5], |list| list.len() == 2 || list == &[5]);
    assert_eq!(shrunk.case, [5]);
    let ordered = |list: &Vec<u32>| match list[..] {
        [first, second] => second == 0 || first == 2,
        _ => false,
    };
    let shrunk = shrink(vec![2, 2], ordered);
    assert_eq!(shrunk.case, [0, 0]);
    assert!(shrunk.is_least);
}
