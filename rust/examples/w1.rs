//! Example W1: a corner pitch has a pillar, a pillar supplies electricity, and what a pitch has
//! supplies, it offers. Is a corner pitch a powered pitch? And if pillars supply nothing any more?

use girvotal::{Axiom, Builder, Concept, Refusal, Site};

fn look_up(site: &Site, first: Concept, second: Concept) -> Result<(), Refusal> {
    let answer = if site.lookup(first, second)? {
        "yes"
    } else {
        "no"
    };
    println!("{} under {}: {answer}", first.0, second.0);
    Ok(())
}

fn main() -> Result<(), Refusal> {
    let mut builder = Builder::new();
    let corner_pitch = builder.kind();
    let pillar = builder.kind();
    let electricity = builder.kind();
    let powered_pitch = builder.kind();
    let (has, supplies, offers) = (builder.role(), builder.role(), builder.role());
    builder.composition(has, supplies, offers);
    let has_pillar = builder.existential(has, pillar);
    let supplies_electricity = builder.existential(supplies, electricity);
    let offers_electricity = builder.existential(offers, electricity);
    builder.axiom(corner_pitch, has_pillar);
    builder.axiom(pillar, supplies_electricity);
    builder.axiom(offers_electricity, powered_pitch);

    let mut site = Site::classify(builder.build()?)?;
    look_up(&site, corner_pitch, powered_pitch)?;

    let supply = Axiom {
        left: pillar,
        right: supplies_electricity,
    };
    let changed = site.change(&[supply], &[])?;
    let (removed, returned, gained) = (changed.removed, changed.returned, changed.gained);
    print!("removed {removed}, returned {returned}, gained {gained}, touched");
    changed
        .touched
        .iter()
        .for_each(|concept| print!(" {}", concept.0));
    println!();
    look_up(&site, corner_pitch, powered_pitch)
}
