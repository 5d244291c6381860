//! A small market day: animals come, are looked up, and leave, and a lorry is unloaded.

use rulgovaz::{Movement, Refusal, TagFields, TagIndex};

fn tag(country: u64, national: u64) -> Result<u64, Refusal> {
    TagFields::of_animal(country, national).pack()
}

/// Makes the movements of a lorry in one call, and prints the result of each.
fn unload(herd: &mut TagIndex) -> Result<(), Refusal> {
    let lorry = [
        Movement::on(tag(826, 20)?, 7),
        Movement::on(tag(826, 21)?, 2), // declined: 16 has this record
        Movement::off(tag(826, 16)?),
        Movement::on(tag(826, 22)?, 2),
    ];
    println!("load:");
    for (movement, result) in lorry.iter().zip(herd.load(&lorry)?) {
        let verb = movement.record().map_or("off", |_| "on");
        let animal = TagFields::unpack(movement.key())?.national;
        match result {
            Ok(()) => println!("  {verb} {animal}: done"),
            Err(refusal) => println!("  {verb} {animal}: {}, {refusal}", refusal.number()),
        }
    }
    Ok(())
}

fn main() -> Result<(), Refusal> {
    // Keys of 64 bits, 250 pages of 60 entries, 4,096 records.
    let mut herd = TagIndex::new(64, 60, 250, 4096)?;
    herd.on(tag(826, 17)?, 5)?;
    herd.on(tag(826, 16)?, 2)?;
    if let Err(refusal) = herd.on(tag(826, 18)?, 5) {
        println!("on 18, record 5: {refusal}");
    }
    println!("find 17: record {}", herd.find(tag(826, 17)?)?);

    let [first, last] = [tag(826, 0)?, tag(826, TagFields::MAX_NATIONAL)?];
    println!("list country 826: {:?}", herd.list_all(first, last)?);

    herd.off(tag(826, 17)?)?;
    match herd.find(tag(826, 17)?) {
        Ok(record) => println!("find 17: record {record}"),
        Err(refusal) => println!("find 17: {refusal}"),
    }
    unload(&mut herd)?;
    println!("sound: {}", herd.check());
    Ok(())
}
