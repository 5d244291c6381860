//! Damaged tables.

use super::keys::largest_key;
use super::places::{
    depth_at, page_at, page_start, pages_in_use, places, pointer, records, set_depth, set_pointer,
};
use super::sound_tables::{number_pages, tree, Borders};
use super::Random;
use crate::table::{header, held_end, number, read, store, Header, Tables, HEADER_BYTES, LAYOUT};

/// A kind of damage to sound tables.
#[derive(Clone, Copy, Debug, PartialEq, Eq)]
pub enum Damage {
    /// Any byte of the index table altered.
    AnyByte,
    /// A byte of the header altered.
    HeaderByte,
    /// Records held one off.
    HeldOff,
    /// Another root.
    OtherRoot,
    /// The level of a page in use altered.
    Level,
    /// The count of a page in use one off.
    Count,
    /// The depth of an entry altered.
    Depth,
    /// The last depth of a level 0 page altered, and those of its parents.
    DepthAndParents,
    /// Two pointers of one level swapped.
    PointersSwapped,
    /// Two entries of one page swapped.
    EntriesSwapped,
    /// A page or record pointed at twice.
    Shared,
    /// A parent entry that points at its own page, or at the root.
    Cycle,
    /// A pointer past the tables, or NIL.
    PointerOut,
    /// A free record that takes a held key.
    KeyDoubled,
    /// The key of a record in use altered.
    KeyAltered,
    /// The byte of a record altered.
    UsedByte,
    /// A key on a free record.
    FreeKey,
    /// A stray byte in a free page.
    StrayInFreePage,
    /// A stray byte in an unused entry.
    StrayInUnusedEntry,
    /// A root of one entry above the root.
    LoneRoot,
    /// Other borders on every level, the last depth of a page not always below
    /// all others.
    Borders,
    /// A table too long or too short.
    Length,
}

/// All kinds of damage.
pub const DAMAGES: [Damage; 22] = [
    Damage::AnyByte,
    Damage::HeaderByte,
    Damage::HeldOff,
    Damage::OtherRoot,
    Damage::Level,
    Damage::Count,
    Damage::Depth,
    Damage::DepthAndParents,
    Damage::PointersSwapped,
    Damage::EntriesSwapped,
    Damage::Shared,
    Damage::Cycle,
    Damage::PointerOut,
    Damage::KeyDoubled,
    Damage::KeyAltered,
    Damage::UsedByte,
    Damage::FreeKey,
    Damage::StrayInFreePage,
    Damage::StrayInUnusedEntry,
    Damage::LoneRoot,
    Damage::Borders,
    Damage::Length,
];

/// Sound tables with this damage, or nothing if they offer no place for it.
pub fn damaged(random: &mut Random, tables: &Tables, damage: Damage) -> Option<Tables> {
    let mut hurt = tables.clone();
    let done = match damage {
        Damage::AnyByte | Damage::HeaderByte => alter_byte(random, &mut hurt, damage),
        Damage::HeldOff | Damage::OtherRoot => header_number(random, &mut hurt, damage),
        Damage::Level | Damage::Count => page_head(random, &mut hurt, damage),
        Damage::Depth => depth(random, &mut hurt),
        Damage::DepthAndParents => depth_and_parents(random, &mut hurt),
        Damage::PointersSwapped | Damage::Shared => two_pointers(random, &mut hurt, damage),
        Damage::EntriesSwapped => swap_entries(random, &mut hurt),
        Damage::Cycle | Damage::PointerOut => one_pointer(random, &mut hurt, damage),
        Damage::KeyDoubled => double_key(random, &mut hurt),
        Damage::KeyAltered | Damage::UsedByte | Damage::FreeKey => {
            register(random, &mut hurt, damage)
        }
        Damage::StrayInFreePage | Damage::StrayInUnusedEntry => stray(random, &mut hurt, damage),
        Damage::LoneRoot => lone_root(&mut hurt),
        Damage::Borders => other_borders(random, &mut hurt),
        Damage::Length => length(random, &mut hurt),
    };
    done.filter(|()| hurt != *tables).map(|()| hurt)
}

fn alter_byte(random: &mut Random, tables: &mut Tables, damage: Damage) -> Option<()> {
    let bytes = match damage {
        Damage::AnyByte => tables.index.len(),
        _ => HEADER_BYTES,
    };
    tables.index[random.below(bytes)] = random.number() as u8;
    Some(())
}

fn header_number(random: &mut Random, tables: &mut Tables, damage: Damage) -> Option<()> {
    let Header { pages, held, .. } = header(&tables.index);
    match damage {
        Damage::HeldOff => {
            let off = if random.percent(50) {
                held + 1
            } else {
                held.checked_sub(1)?
            };
            store(off as u32, &mut tables.index[6..held_end()]);
        }
        _ => store(random.below(pages + 1) as u32, &mut tables.index[4..6]),
    }
    Some(())
}

fn page_head(random: &mut Random, tables: &mut Tables, damage: Damage) -> Option<()> {
    let pages = pages_in_use(tables);
    let start = page_start(tables, *random.pick(&pages));
    let place = if damage == Damage::Level {
        start
    } else {
        start + 1
    };
    let byte = tables.index[place];
    let step = if random.percent(50) { 1 } else { 255 };
    tables.index[place] = byte.wrapping_add(step);
    Some(())
}

fn depth(random: &mut Random, tables: &mut Tables) -> Option<()> {
    let places = places(tables, |_| true);
    let place = *random.pick(&places);
    set_depth(
        tables,
        place,
        random.below(header(&tables.index).width + 2) as u8,
    );
    Some(())
}

/// Alters the last depth of a level 0 page and then of every parent entry that
/// would no longer equal it.
fn depth_and_parents(random: &mut Random, tables: &mut Tables) -> Option<()> {
    let level_0: Vec<u32> = pages_in_use(tables)
        .into_iter()
        .filter(|&page| page_at(tables, page).level == 0)
        .collect();
    let depth = random.below(header(&tables.index).width + 1) as u8;
    let mut page = *random.pick(&level_0);
    loop {
        let last = page_at(tables, page).count - 1;
        set_depth(tables, (page, last), depth);
        let parents = places(tables, |stored| stored.level > 0);
        let parent = parents
            .into_iter()
            .find(|&place| pointer(tables, place) == page);
        let Some((above, entry)) = parent else {
            return Some(());
        };
        set_depth(tables, (above, entry), depth);
        if entry + 1 < page_at(tables, above).count {
            return Some(());
        }
        page = above;
    }
}

fn two_pointers(random: &mut Random, tables: &mut Tables, damage: Damage) -> Option<()> {
    let level = random.below(page_at(tables, header(&tables.index).root).level + 1);
    let places = places(tables, |stored| stored.level == level);
    let (one, other) = (*random.pick(&places), *random.pick(&places));
    let pointers = (pointer(tables, one), pointer(tables, other));
    set_pointer(tables, one, pointers.1);
    if damage == Damage::PointersSwapped {
        set_pointer(tables, other, pointers.0);
    }
    Some(())
}

fn swap_entries(random: &mut Random, tables: &mut Tables) -> Option<()> {
    let page = *random.pick(&pages_in_use(tables));
    let count = page_at(tables, page).count;
    let [one, other] = [0, 1].map(|_| (page, random.below(count)));
    let entry = |tables: &Tables, place| (depth_at(tables, place), pointer(tables, place));
    let (first, second) = (entry(tables, one), entry(tables, other));
    set_depth(tables, one, second.0);
    set_pointer(tables, one, second.1);
    set_depth(tables, other, first.0);
    set_pointer(tables, other, first.1);
    Some(())
}

fn one_pointer(random: &mut Random, tables: &mut Tables, damage: Damage) -> Option<()> {
    let Header { pages, root, .. } = header(&tables.index);
    let cycle = damage == Damage::Cycle;
    let places = places(tables, |stored| stored.level > 0 || !cycle);
    if places.is_empty() {
        return None;
    }
    let place = *random.pick(&places);
    let out = [
        pages as u32,
        tables.keys.len() as u32,
        LAYOUT.nil(),
        LAYOUT.nil() - 1,
    ];
    let target = match cycle {
        true => *random.pick(&[place.0, root]),
        false => *random.pick(&out),
    };
    set_pointer(tables, place, target);
    Some(())
}

fn double_key(random: &mut Random, tables: &mut Tables) -> Option<()> {
    let held = *records(tables, 1).first()?;
    let free = records(tables, 0);
    if free.is_empty() {
        return None;
    }
    let double = *random.pick(&free);
    tables.keys[double] = tables.keys[held];
    tables.used[double] = 1;
    let records_held = number(&tables.index[6..held_end()]) + 1;
    store(records_held, &mut tables.index[6..held_end()]);
    Some(())
}

fn register(random: &mut Random, tables: &mut Tables, damage: Damage) -> Option<()> {
    let width = header(&tables.index).width;
    let records = match damage {
        Damage::KeyAltered => records(tables, 1),
        Damage::FreeKey => records(tables, 0),
        _ => (0..tables.used.len()).collect(),
    };
    if records.is_empty() {
        return None;
    }
    let record = *random.pick(&records);
    match damage {
        Damage::UsedByte => tables.used[record] = *random.pick(&[0, 1, 2, 255]),
        Damage::KeyAltered if random.percent(50) => {
            tables.keys[record] = *random.pick(&tables.keys.clone());
        }
        _ if width < 64 && random.percent(20) => tables.keys[record] = largest_key(width) + 1,
        _ => tables.keys[record] ^= 1 << random.below(width),
    }
    Some(())
}

fn stray(random: &mut Random, tables: &mut Tables, damage: Damage) -> Option<()> {
    let Header { entries, pages, .. } = header(&tables.index);
    let bytes = LAYOUT.page_bytes(entries);
    let places: Vec<usize> = (0..pages as u32)
        .filter(|&page| (page_at(tables, page).count == 0) == (damage == Damage::StrayInFreePage))
        .flat_map(|page| {
            let start = page_start(tables, page);
            let count = page_at(tables, page).count;
            let head = if count == 0 { 0 } else { LAYOUT.head_bytes };
            start + head + count * LAYOUT.entry_bytes()..start + bytes
        })
        .collect();
    if places.is_empty() {
        return None;
    }
    tables.index[*random.pick(&places)] = *random.pick(&[1, 2, 128, 255]);
    Some(())
}

fn lone_root(tables: &mut Tables) -> Option<()> {
    let Header { pages, root, .. } = header(&tables.index);
    let free = (0..pages as u32).find(|&page| page_at(tables, page).count == 0)?;
    let start = page_start(tables, free);
    tables.index[start] = page_at(tables, root).level as u8 + 1;
    tables.index[start + 1] = 1;
    set_pointer(tables, (free, 0), root);
    store(free, &mut tables.index[4..6]);
    Some(())
}

fn other_borders(random: &mut Random, tables: &mut Tables) -> Option<()> {
    let mut index = read(tables.lent());
    let leaves = index.root.leaves();
    index.root = tree(random, leaves, index.most_entries, Borders::Any)?;
    if index.root.pages().len() > index.most_pages {
        return None;
    }
    number_pages(random, &mut index.root, index.most_pages);
    *tables = Tables::of(&index);
    Some(())
}

fn length(random: &mut Random, tables: &mut Tables) -> Option<()> {
    let page = LAYOUT.page_bytes(header(&tables.index).entries);
    match random.below(9) {
        0 => drop(tables.index.pop()),
        1 => tables.index.push(0),
        2 => tables.index.truncate(random.below(HEADER_BYTES + 1)),
        3 => tables.index.truncate(tables.index.len() - page),
        4 => tables.index.extend(vec![0; page]),
        5 => drop(tables.keys.pop()),
        6 => tables.used.push(0),
        7 => drop(tables.used.pop()),
        _ => {
            tables.keys.clear();
            tables.used.clear();
        }
    }
    Some(())
}
