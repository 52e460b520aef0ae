//! House, desk and play one after the other, as a shell joins them.

use outside::checks::sounds::Sound;
use outside::checks::Difference;

use super::desk::{any_order, split};
use crate::expected::{self, house_sheet};
use crate::folder::{and_file, file_in, with_sheet, Contents, NEW_NAME, SHEET_NAME};
use crate::run::{DESK, HOUSE, PLAY};
use crate::seen::Seen;
use crate::test::Test;

const FRAMES: usize = 20_000;

/// Desk with these orders, as a shell takes it.
fn desk(test: &Test, orders: &str) -> Vec<u8> {
    test.setup.in_shell(DESK, &split(orders))
}

/// House and a desk for each of these, joined by pipes.
fn chain(test: &Test, orders: &[&str]) -> Vec<u8> {
    let mut parts = vec![test.setup.in_shell(HOUSE, &[])];
    parts.extend(orders.iter().map(|orders| desk(test, orders)));
    parts.join(&b" | "[..])
}

/// The sheet after these orders.
fn ordered(sheet: Vec<u8>, orders: &[&str]) -> Vec<u8> {
    orders.iter().fold(sheet, |sheet, orders| expected::desk(&split(orders), &sheet, &Contents::new()).sound)
}

/// The sheet that comes out of a chain, and that of one desk with all orders.
fn sheets(test: &mut Test, orders: &[&str]) -> Result<(), Difference> {
    let nothing = Contents::new();
    let expected = Seen::written(&ordered(house_sheet(), orders), &nothing);
    test.shell(&chain(test, orders), &nothing, &[], &expected)?;
    if orders.len() > 1 {
        test.shell(&chain(test, &[&orders.join(" ")]), &nothing, &[], &expected)?;
    }
    Ok(())
}

/// A chain and a sound played through its sheet.
fn played(test: &mut Test, orders: &[&str], bytes: &[u8]) -> Result<(), Difference> {
    let text = [&chain(test, orders)[..], b" >strip.sht; ", &test.setup.in_shell(PLAY, &[])].concat();
    let sheet = ordered(house_sheet(), orders);
    let expected = expected::play(&with_sheet(&sheet), bytes, &mut test.met);
    test.frames += expected.sound.len() as u64 / 4;
    test.shell(&text, &Contents::new(), bytes, &expected)
}

/// A chain, and an order more between two sounds.
fn played_on(test: &mut Test, orders: &[&str], more: &str, bytes: &[u8]) -> Result<(), Difference> {
    let (first, second) = bytes.split_at(bytes.len() / 8 * 4);
    let [begin, play, more_text] = [chain(test, orders), test.setup.in_shell(PLAY, &[]), desk(test, more)];
    let middle: [&[u8]; 3] = [b" <first; ", &more_text, b" <strip.new >strip.sht; "];
    let text = [&begin[..], b" >strip.sht; ", &play, &middle.concat(), &play, b" <second"].concat();
    let begun = expected::play(&with_sheet(&ordered(house_sheet(), orders)), first, &mut test.met);
    let new = file_in(&begun.after, NEW_NAME).unwrap_or_default().to_vec();
    let before = and_file(&and_file(&Contents::new(), "first", first), "second", second);
    let middle = and_file(&before, SHEET_NAME, &ordered(new, &[more]));
    let mut expected = expected::play(&middle, second, &mut test.met);
    expected.sound.splice(..0, begun.sound);
    test.frames += expected.sound.len() as u64 / 4;
    test.shell(&text, &before, &[], &expected)
}

pub fn all(test: &mut Test) -> Result<(), Difference> {
    let two = ["2 10 25", "0 3 20"];
    for orders in [&[], &two[..1], &two] {
        sheets(test, orders)?;
    }
    for _ in 0..8 {
        let orders = [(); 10].map(|()| any_order(&mut test.maker.random));
        sheets(test, &orders.each_ref().map(String::as_str))?;
    }
    // A refused order hands on no sheet.
    let nothing = Contents::new();
    test.shell(&chain(test, &["2 11 25", "0 3 20"]), &nothing, &[], &Seen::nothing_but("1\n11\n", &nothing))?;
    let bytes = test.sound(Sound::Soft(14), FRAMES);
    played(test, &two, &bytes)?;
    played(test, &two, &bytes[..4 * FRAMES - 1])?;
    played_on(test, &two, "2 10 mute", &bytes)?;
    played_on(test, &two, "0 3 mute", &bytes)?;
    played_on(test, &two, "1 3 0 2 10 31", &bytes)
}
