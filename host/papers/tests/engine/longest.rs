//! The longest file through the wrapper, and a byte more.

use engine::{Better, Ground, Refusal, Sheet};
use papers::files::{longest_file, openings, Dice};
use papers::sections::archive::archive_form;
use papers::sections::network::read;

/// The archive form comes whole, as long as the file wherever the edition isn't the
/// first.
#[test]
fn the_longest_archive_forms() {
    for edition in openings() {
        let longest = longest_file(&mut Dice::new(75), edition);
        let net = read(&longest).expect("an accepted file");
        let length = edition.map_or(1_329, |_| 1_331);
        assert_eq!(
            (longest.len(), net.lines(), net.calls.len()),
            (length, 16, 256)
        );
        let form = archive_form(&net);
        assert_eq!(form.len(), if net.edition == 1 { 1_329 } else { 1_331 });
        assert_eq!(engine::archive(&longest), Ok(form));
    }
}

/// Every call that can refuse gives this refusal, and none of two sheets is better.
fn refused_by_all(longer: &[u8], refusal: Refusal) {
    let (sheet, refusal) = (Sheet::of_starts(&[0; 16]), Err(refusal));
    assert_eq!(engine::read(longer).map(drop), refusal);
    assert_eq!(engine::rate(longer, &sheet).map(drop), refusal);
    assert_eq!(engine::weighted(longer, &sheet).map(drop), refusal);
    assert_eq!(engine::classes(longer).map(drop), refusal);
    assert_eq!(engine::search(longer, 100).map(drop), refusal);
    let searched = engine::search_into(longer, &mut [7; 16], 100);
    assert_eq!(searched.map(drop), refusal);
    assert_eq!(engine::wanted(longer, 0, 100).map(drop), refusal);
    let sought = engine::wanted_into(longer, &mut [7; 16], 0, 100);
    assert_eq!(sought.map(drop), refusal);
    assert_eq!(engine::mark(longer, &sheet, 100).map(drop), refusal);
    let by_key = engine::mark_by_key(longer, &sheet, &sheet);
    assert_eq!(by_key.map(drop), refusal);
    assert_eq!(engine::archive(longer).map(drop), refusal);
    assert_eq!(engine::board(longer, &sheet, 0, 0, 60).map(drop), refusal);
    let (times, lines) = (&mut [7; 60], &mut [7; 60]);
    let board = engine::board_into(longer, &sheet, 0, 0, 60, times, lines);
    assert_eq!(board.map(drop), refusal);
    assert_eq!(engine::gaps(longer, &sheet).map(drop), refusal);
    let gaps = engine::gaps_into(longer, &sheet, &mut [7; 64]);
    assert_eq!(gaps.map(drop), refusal);
    let better = engine::better(longer, &sheet, &sheet);
    assert_eq!(better, Better::Neither);
}

/// Ground 14 at 1,329, or with an edition at 1,331, whatever stands behind.
#[test]
fn a_byte_behind_the_longest_file() {
    for edition in openings() {
        let longest = longest_file(&mut Dice::new(75), edition);
        let refusal = Refusal {
            ground: Ground::ByteAfterEnd,
            place: edition.map_or(1_329, |_| 1_331),
        };
        for length in [longest.len() + 1, 4_096, 5_000] {
            let mut longer = longest.clone();
            longer.resize(length, 0x45);
            refused_by_all(&longer, refusal);
        }
    }
}
