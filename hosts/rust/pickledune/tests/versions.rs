//! The versions of wrapper, archive and areas, and the refusals by number.
use pickledune::{area_words, layout_of, Ran, Refusal};

/// The table of 01's example: one wait, 1 for 2.
const TABLE: [u8; 20] = [2, 0, 1, 0, 1, 0, 0, 0, 0, 0, 1, 0, 1, 0, 2, 0, 0, 0, 0, 0];

#[test]
fn wrapper_and_archive_are_of_one_version() {
    assert_eq!(pickledune::version(), pickledune::VERSION);
    assert_eq!(pickledune::layout(), pickledune::LAYOUT);
    let numbers = pickledune::VERSION_TEXT.split('.').map(|number| number.parse::<u32>().unwrap());
    assert_eq!(numbers.fold(0, |all, number| 100 * all + number), pickledune::VERSION);
}

#[test]
fn an_area_says_its_layout_throughout_a_run() {
    let mut area = [0; area_words(2, 1)];
    pickledune::start(&TABLE, 1, 1, &mut area).unwrap();
    for ran in [Ran::Spent(1), Ran::Over(1)] {
        assert_eq!(layout_of(&area), Some(pickledune::layout()));
        assert_eq!(pickledune::run_on(&mut area, 1), ran);
    }
    assert_eq!(layout_of(&area), Some(pickledune::layout()));
}

#[test]
fn an_area_of_another_layout_is_not_well_formed() {
    for (word, layout) in [(0, Some(0)), (1, Some(1)), (3, Some(3)), (-2, None), (i32::MIN, None)] {
        let mut area = [0; area_words(2, 1)];
        pickledune::start(&TABLE, 1, 1, &mut area).unwrap();
        area[pickledune::LAYOUT_WORD] = word;
        assert_eq!(layout_of(&area), layout);
        let before = area;
        let refusal = Refusal::NotWellFormed;
        assert_eq!(pickledune::run_on(&mut area, 1), Ran::Refused { refusal, made: 0 });
        assert_eq!(pickledune::pick(&mut area, 1, 2, 1), Err(refusal));
        assert_eq!(pickledune::report(&area), Err(refusal));
        assert_eq!(area, before);
    }
    assert_eq!(layout_of(&[]), None);
}

#[test]
fn every_number_has_one_refusal() {
    let named = |number: &u32| Refusal::numbered(*number) != Refusal::Other(*number);
    let numbers: Vec<u32> = (0..100).filter(named).collect();
    let all: Vec<u32> = Refusal::ALL.iter().map(|refusal| refusal.number()).collect();
    assert_eq!(numbers, all);
    for number in [0, 14, 23, 99, u32::MAX] {
        assert_eq!(Refusal::numbered(number).number(), number);
    }
    assert_eq!(Refusal::numbered(23), Refusal::Over);
}

#[test]
fn a_refusal_is_a_line_for_a_log() {
    assert_eq!(Refusal::Over.to_string(), "refused 23: the run is over");
    assert_eq!(Refusal::numbered(99).to_string(), "refused 99: no refusal of this library");
}
