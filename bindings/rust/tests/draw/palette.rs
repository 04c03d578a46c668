//! The colours: as many for a dark screen as for a light one, and text that stands out in both.

use crate::read::of_text;
use std::collections::BTreeMap;

/// The colour of each selector and property, of a part of a style sheet.
fn colours(rules: &str) -> BTreeMap<(String, String), String> {
    let mut colours = BTreeMap::new();
    for (selectors, body) in rules.split('}').filter_map(|rule| rule.split_once('{')) {
        for (property, value) in body.split(';').filter_map(|part| part.split_once(':')) {
            for selector in selectors.split(',').filter(|_| value.starts_with('#')) {
                colours.insert((selector.to_string(), property.to_string()), value.to_string());
            }
        }
    }
    colours
}

/// The palettes of a picture, light and dark.
fn palettes() -> [BTreeMap<(String, String), String>; 2] {
    let picture = of_text("scope 7 block 7");
    let (light, rest) = picture.style().split_once("@media (prefers-color-scheme:dark){").unwrap();
    [colours(light), colours(rest.split_once("}}").unwrap().0)]
}

/// How bright a colour is, as WCAG 2 has it.
fn luminance(colour: &str) -> f64 {
    let part = |at: usize| {
        let value = f64::from(u8::from_str_radix(&colour[at..at + 2], 16).unwrap()) / 255.0;
        if value <= 0.04045 {
            value / 12.92
        } else {
            ((value + 0.055) / 1.055).powf(2.4)
        }
    };
    0.2126 * part(1) + 0.7152 * part(3) + 0.0722 * part(5)
}

fn contrast(one: &str, other: &str) -> f64 {
    let (one, other) = (luminance(one) + 0.05, luminance(other) + 0.05);
    (one / other).max(other / one)
}

#[test]
fn whatever_has_a_colour_has_one_in_the_dark_too() {
    let [light, dark] = palettes();
    assert!(light.len() > 15);
    assert!(light.keys().eq(dark.keys()), "{light:?} {dark:?}");
    let page = ("page".to_string(), "fill".to_string());
    assert!(luminance(&light[&(".".to_string() + &page.0, page.1.clone())]) > 0.9);
    assert!(luminance(&dark[&(".".to_string() + &page.0, page.1)]) < 0.02);
}

#[test]
fn text_and_arrows_stand_out_from_what_they_are_on() {
    let on = |of: &'static str, least: f64, grounds: &'static [&'static str]| (of, least, grounds);
    let everywhere = &[".page", ".box", ".scope", ".panel"];
    let pairs = [
        on("text", 7.0, everywhere),
        on(".label", 4.5, everywhere),
        on(".assumed", 4.5, &[".page", ".box", ".scope"]),
        on(".added", 4.5, &[".page", ".box", ".scope"]),
        on(".cut", 4.5, everywhere),
        on(".knife", 4.5, &[".page", ".panel"]),
        on(".covered", 4.5, &[".page", ".panel"]),
        on(".returned", 4.5, &[".panel"]),
        on(".plain-head", 4.5, &[".page"]),
        on(".loop-head", 4.5, &[".page"]),
    ];
    for palette in palettes() {
        let fill = |of: &str| &palette[&(of.to_string(), "fill".to_string())];
        for (of, least, grounds) in &pairs {
            for ground in *grounds {
                let contrast = contrast(fill(of), fill(ground));
                assert!(contrast >= *least, "{of} on {ground}: {contrast:.2}");
            }
        }
    }
}
