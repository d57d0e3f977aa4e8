//! `exam archive`.

use crate::common::{exam, exam_with, typed, written, Folder, HEX, NET, ROOT};
use papers::files::{bytes_of, retyped, valid_commands, Dice, Stated};
use papers::sections::archive::archive_form;
use papers::sections::network::read;

#[test]
fn archive_prints_a_line_for_each_command() {
    let tidy = "4C 000F\n4C 0014\n43 00 00 0008\n43 01 00 0011\n45\n";
    exam(&["archive", HEX]).printed(tidy, 0);
    exam(&["archive", NET]).printed(tidy, 0);
    exam_with(&["archive", "-", "--typed"], tidy.as_bytes()).printed(tidy, 0);
    let behind = "4C000F 4300000008 4C0014 4301000011 45";
    exam_with(&["archive", "--typed", "-"], behind.as_bytes()).printed(tidy, 0);
    let rides = "4C003C 4300090064 4600010001 4300040007 460000FFF8 45";
    let form = "4C 003C\n43 00 00 FFFF\n43 00 01 0065\n43 00 04 0007\n43 00 09 0064\n45\n";
    exam_with(&["archive", "--typed", "-"], rides.as_bytes()).printed(form, 0);
    exam_with(&["archive", "--typed", "-"], form.as_bytes()).printed(form, 0);
}

/// Edition 2 stands first, edition 1 nowhere.
#[test]
fn archive_with_an_edition() {
    let calls = "4C 000F\n43 00 00 0008\n45\n";
    for (opening, archived) in [("", ""), ("5601", ""), ("5602", "56 02\n")] {
        let text = format!("{opening} 4C000F 4300000008 45");
        let form = format!("{archived}{calls}");
        exam_with(&["archive", "-", "--typed"], text.as_bytes()).printed(&form, 0);
        exam_with(&["archive", "-", "--typed"], form.as_bytes()).printed(&form, 0);
    }
}

/// Of every sample the archive form, typed and as bytes, is the same network,
/// and its search ends with the same line.
#[test]
fn archive_of_the_samples() {
    let folder = Folder::new();
    for name in ["one_line", "two_lines", "loop", "valley", "village", "town"] {
        let network = format!("samples/{name}.hex");
        let typed = folder.file("tidy.hex", exam(&["archive", &network]).out);
        let raw = folder.file("tidy.net", written(&["archive", &network, "--raw"]));
        for tidy in [&typed, &raw] {
            exam(&["same", &network, tidy]).printed("same\n", 0);
            let answer = exam(&["best", &network, "--quiet", "--budget", "20000"]);
            let on_tidy = exam(&["best", tidy, "--quiet", "--budget", "20000"]);
            assert_eq!((on_tidy.out, on_tidy.status), (answer.out, answer.status));
        }
        let again = exam(&["archive", &raw]).out;
        assert_eq!(again, exam(&["archive", &typed]).out);
    }
    assert_eq!(
        written(&["archive", HEX, "--raw"]),
        std::fs::read(format!("{}/{NET}", ROOT)).expect("a sample")
    );
}

/// Seeded files: the papers' bytes, and every way of typing a network is the
/// same network.
#[test]
fn archive_and_same_on_seeded_files() {
    let mut dice = Dice::new(94);
    let folder = Folder::new();
    for _ in 0..60 {
        let commands = valid_commands(&mut dice);
        let again = bytes_of(&retyped(&mut dice, &Stated::by(&commands)));
        let file = bytes_of(&commands);
        let form = archive_form(&read(&file).expect("an accepted file"));
        let network = folder.file("one.net", &file);
        assert_eq!(written(&["archive", &network, "--raw"]), form);
        let other = folder.file("other.hex", typed(&again));
        exam(&["same", &network, &other]).printed("same\n", 0);
    }
}
