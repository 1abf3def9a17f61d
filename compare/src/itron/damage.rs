//! Damaged lists and damaged tables: E_SYS and nothing changed, or served, as this project's own code does.

use crate::fuzz::mutate::mutate;
use crate::fuzz::rng::Rng;
use crate::itron::comparison::Comparison;
use crate::itron::generate::draw_kind;
use crate::itron::lent::{Lending, PLACES};
use crate::itron::{Service, ENTRIES, MOST_MAPPED, SERVICES};
use crate::layout::{set_word, slot_at, LENGTH, MAXIMUM};
use crate::model::{identifier, Class, Machine};
use crate::state::comparison::Compared;

/// How often a list and how often tables are damaged after one sequence.
const LISTS: usize = 24;
const TABLES: usize = 6;

/// Tables and list that agree, to be damaged.
pub struct Base<'a> {
    pub machine: &'a Machine,
    pub bytes: &'a [u8],
    pub list: &'a [u32],
}

impl Base<'_> {
    /// One call of each kind, drawn for tables and list before any damage.
    fn probes(&self, rng: &mut Rng) -> Vec<Service> {
        (0..SERVICES.len()).map(|kind| draw_kind(rng, self.machine, self.list, kind)).collect()
    }

    /// The identifiers of the live semaphores that satisfy this, with their maximum.
    fn live(&self, wanted: impl Fn(Class, u32) -> bool) -> Vec<u32> {
        let numbered = self.machine.slots.iter().enumerate();
        let of_kind = numbered.filter_map(|(index, slot)| {
            let live = slot.live.as_ref()?;
            wanted(live.class, live.maximum).then(|| identifier(slot.generation, index))
        });
        of_kind.collect()
    }

    /// The places of the list that have an identifier.
    fn mapped(&self) -> Vec<usize> {
        (0..self.list.len()).filter(|&place| self.list[place] != 0).collect()
    }
}

/// Makes each call on its own copy of tables and list.
fn probe(
    comparison: &mut Comparison,
    calls: &[Service],
    bytes: &[u8],
    list: &[u32],
    place: usize,
) -> Compared {
    for call in calls {
        let mut lent = Lending::new(bytes, list, place);
        comparison.serve(&mut lent, call)?;
    }
    Ok(())
}

/// Damages the list, the tables, and both.
pub fn damaged(comparison: &mut Comparison, rng: &mut Rng, base: &Base) -> Compared {
    for _ in 0..LISTS {
        let calls = base.probes(rng);
        let mut bytes = base.bytes.to_vec();
        let (list, said) = damage_list(rng, base, &mut bytes);
        let compared = probe(comparison, &calls, &bytes, &list, rng.below(PLACES));
        compared.map_err(|found| format!("{found}; damage: {said}"))?;
    }
    for _ in 0..TABLES {
        let calls = base.probes(rng);
        let mut bytes = base.bytes.to_vec();
        let (list, first) = match rng.chance(20) {
            true => damage_list(rng, base, &mut bytes),
            false => (base.list.to_vec(), "nothing".into()),
        };
        let then = damage_tables(rng, base, &mut bytes);
        let compared = probe(comparison, &calls, &bytes, &list, rng.below(PLACES));
        compared.map_err(|found| format!("{found}; damage: {first}, then {then}"))?;
    }
    Ok(())
}

/// Does one damage to the tables, or gives them another length, and says which.
fn damage_tables(rng: &mut Rng, base: &Base, bytes: &mut Vec<u8>) -> String {
    if rng.chance(80) {
        return mutate(rng, base.machine, bytes);
    }
    let length = rng.pick(&[0, 1, LENGTH - 4, LENGTH - 1, LENGTH + 1, LENGTH + 4]);
    bytes.resize(length, 0);
    format!("{length} bytes of tables")
}

/// Does one damage to a copy of the list, or to the maximum of a semaphore in it, and says which.
fn damage_list(rng: &mut Rng, base: &Base, bytes: &mut [u8]) -> (Vec<u32>, String) {
    let mut list = base.list.to_vec();
    let said = match rng.below(12) {
        0 | 1 => resize(rng, &mut list),
        2 | 3 => name_twice(rng, base, &mut list),
        4 => put_behind(rng, base, &mut list),
        5 | 6 => make_stale(rng, base, &mut list),
        7 | 8 => put_other_class(rng, base, &mut list),
        9 => raise_maximum(rng, base, bytes),
        10 => put_random(rng, base, &mut list),
        _ => put_right(rng, base, &mut list),
    };
    (list, said)
}

fn resize(rng: &mut Rng, list: &mut Vec<u32>) -> String {
    let any = rng.below(130);
    let length = rng.pick(&[0, 1, 63, 63, 65, 65, 128, any]);
    list.resize(length, 0);
    format!("{length} entries")
}

/// A place of the list for a semid, if there is any.
fn draw_place(rng: &mut Rng, base: &Base) -> Option<usize> {
    let slots = base.machine.slots.len();
    (slots > 0).then(|| rng.below(slots))
}

fn name_twice(rng: &mut Rng, base: &Base, list: &mut [u32]) -> String {
    let (mapped, place) = (base.mapped(), draw_place(rng, base));
    let (Some(place), false) = (place, mapped.is_empty()) else { return "nothing".into() };
    let from = rng.pick(&mapped);
    list[place] = list[from];
    format!("entry {from} copied to entry {place}")
}

/// An identifier of the list, moved or copied behind S, or any number there.
fn put_behind(rng: &mut Rng, base: &Base, list: &mut [u32]) -> String {
    let (mapped, slots) = (base.mapped(), base.machine.slots.len());
    if slots == ENTRIES {
        return "nothing".into();
    }
    let any = slots + rng.below(ENTRIES - slots);
    let place = rng.pick(&[slots, ENTRIES - 1, any]);
    let mut number = rng.pick(&[1, 65537, u32::MAX]);
    if !mapped.is_empty() && rng.chance(70) {
        let from = rng.pick(&mapped);
        number = list[from];
        list[from] = 0;
    }
    list[place] = number;
    format!("{number} put into entry {place}, behind S")
}

/// Another generation or slot in an entry, or a slot that is free.
fn make_stale(rng: &mut Rng, base: &Base, list: &mut [u32]) -> String {
    let Some(any) = draw_place(rng, base) else { return "nothing".into() };
    let mapped = base.mapped();
    let place = if mapped.is_empty() { any } else { rng.pick(&mapped) };
    let was = list[place];
    let slots = base.machine.slots.len() as u32;
    let free = base.machine.slots.iter().position(|slot| slot.live.is_none());
    let freed = free.map_or(was, |index| identifier(base.machine.slots[index].generation, index));
    let other_slot = was & 0xFFFF_0000 | rng.pick(&[0, slots + 1, 255, 256, 65535]);
    let earlier = was.wrapping_sub(65536);
    list[place] = rng.pick(&[earlier, earlier, was.wrapping_add(65536), freed, freed, other_slot]);
    format!("entry {place} was {was}, set to {}", list[place])
}

/// A live semaphore that is not counting, or counts too far.
fn put_other_class(rng: &mut Rng, base: &Base, list: &mut [u32]) -> String {
    let class = rng.pick(&[Class::Binary, Class::SimpleBinary, Class::Counting]);
    let others = match class {
        Class::Counting => base.live(|of, maximum| of == class && maximum > MOST_MAPPED),
        _ => base.live(|of, _| of == class),
    };
    let place = draw_place(rng, base);
    let (Some(place), false) = (place, others.is_empty()) else { return "nothing".into() };
    list[place] = rng.pick(&others);
    format!("entry {place} set to {}, {class:?}", list[place])
}

/// The maximum of a mapped semaphore at the greatest that a list may have, or above.
fn raise_maximum(rng: &mut Rng, base: &Base, bytes: &mut [u8]) -> String {
    let mapped = base.mapped();
    if mapped.is_empty() {
        return "nothing".into();
    }
    let slot = base.list[rng.pick(&mapped)] & 0xFFFF;
    let maximum = rng.pick(&[MOST_MAPPED, MOST_MAPPED + 1, MOST_MAPPED + 1, u32::MAX]);
    set_word(bytes, slot_at(slot as usize - 1) + MAXIMUM, maximum);
    format!("maximum of slot {slot} set to {maximum}")
}

fn put_random(rng: &mut Rng, base: &Base, list: &mut [u32]) -> String {
    if rng.chance(20) {
        list.iter_mut().for_each(|entry| *entry = rng.word());
        return "every entry random".into();
    }
    let Some(place) = draw_place(rng, base) else { return "nothing".into() };
    let any = rng.word();
    list[place] = rng.pick(&[any, 1, place as u32 + 1, 65536, u32::MAX]);
    format!("entry {place} set to {}", list[place])
}

/// What leaves the list in agreement: an entry cleared, two exchanged, or a semaphore made by Classic create.
fn put_right(rng: &mut Rng, base: &Base, list: &mut [u32]) -> String {
    let fitting = base.live(|of, maximum| of == Class::Counting && maximum <= MOST_MAPPED);
    let unmapped: Vec<u32> = fitting.into_iter().filter(|id| !base.list.contains(id)).collect();
    let (Some(one), Some(other)) = (draw_place(rng, base), draw_place(rng, base)) else {
        return "nothing".into();
    };
    match rng.below(3) {
        0 => list[one] = 0,
        1 => list.swap(one, other),
        _ if unmapped.is_empty() => {}
        _ => list[one] = rng.pick(&unmapped),
    }
    format!("entries {one} and {other} altered: {:?}", [list[one], list[other]])
}
