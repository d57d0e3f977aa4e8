//! The budget that always suffices.

use engine::typed::{commands, LINE};

/// A budget with which the search of an accepted network finishes: demand 3's
/// "1 + T1 + T1×T2 + .. over the periods after the first", which it shows to be
/// at least the tries of every search. The periods are those of the engine's
/// archive form. `None` where the sum takes more than 128 bits, which 15 periods
/// of 1,440 do.
fn sufficient(form: &[u8]) -> Option<u128> {
    let (mut sum, mut product) = (1u128, 1u128);
    let lines = commands(form).into_iter().filter_map(|command| {
        let [LINE, high, low] = *command else {
            return None;
        };
        Some(u128::from(high) * 256 + u128::from(low))
    });
    for period in lines.skip(1) {
        product = product.checked_mul(period)?;
        sum = sum.checked_add(product)?;
    }
    Some(sum)
}

/// What to say where a budget was used up.
pub fn advice(file: &[u8]) -> String {
    // Only an accepted network is searched.
    let form = engine::archive(file).unwrap_or_default();
    let largest = u32::MAX;
    match sufficient(&form) {
        Some(sum) if sum <= u128::from(largest) => {
            format!("  a budget of {sum} always suffices for this network")
        }
        Some(sum) => format!(
            "  {sum} tries always suffice for this network, more than the largest budget, {largest}"
        ),
        None => format!(
            "  the tries that always suffice for this network are far above the largest budget, \
             {largest}"
        ),
    }
}

#[cfg(test)]
mod tests {
    use super::{advice, sufficient};
    use engine::Searched;
    use papers::files::{any_file, dense_file, Dice};
    use papers::sections::network::read;
    use papers::sections::walk::most_tries;
    use papers::small::small_file;

    fn of(file: &[u8]) -> Option<u128> {
        sufficient(&engine::archive(file).expect("an accepted file"))
    }

    /// With that budget every search finishes, and no try more is made.
    #[test]
    fn it_suffices() {
        let mut dice = Dice::new(301);
        let mut tight = 0;
        for _ in 0..400 {
            let (file, net) = small_file(&mut dice, 20_000);
            let sum = of(&file).expect("a small sum");
            assert_eq!(sum, most_tries(&net));
            let budget = u32::try_from(sum).expect("a budget");
            let searched = engine::search(&file, budget).expect("an accepted file");
            let Searched::Finished(best) = searched else {
                panic!("{budget} tries were too few");
            };
            assert!(best.tries() <= budget);
            tight += usize::from(best.tries() == budget);
        }
        // The sum is no idle one: some networks need all of it.
        assert!(tight > 20, "{tight} needed all");
    }

    #[test]
    fn the_same_sum_as_the_papers() {
        let mut dice = Dice::new(302);
        let mut files: Vec<Vec<u8>> = (0..500).map(|_| any_file(&mut dice)).collect();
        files.push(dense_file(&mut dice, 16, 8));
        for file in files {
            let Ok(net) = read(&file) else {
                continue;
            };
            let papers = most_tries(&net);
            match of(&file) {
                Some(sum) => assert_eq!(sum, papers),
                None => assert_eq!(papers, u128::MAX),
            }
        }
    }

    #[test]
    fn advice_in_words() {
        let said =
            |text: &str| advice(engine::typed::read(text.as_bytes()).expect("typed").bytes());
        let always = |sum: u32| format!("  a budget of {sum} always suffices for this network");
        assert_eq!(said("4C000F 4300000008 45"), always(1));
        assert_eq!(said("4C000F 4C0014 4300000008 4301000011 45"), always(21));
        let days = |lines: usize| {
            let calls = (0..lines).map(|line| format!("43 {line:02X} 00 0000"));
            "4C 05A0 ".repeat(lines) + &calls.collect::<String>() + "45"
        };
        let more = "  4302805019041 tries always suffice for this network, more than";
        assert!(said(&days(5)).starts_with(more), "{}", said(&days(5)));
        assert!(said(&days(16)).contains("far above the largest budget"));
    }
}
