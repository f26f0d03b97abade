//! Whether what a set-up boots has room.
use crate::fault::Defect;
use crate::plain_kernel::Layout;

const SLOT_BITS: u32 = 5;
const TCB_BITS: u32 = 11;
const ENDPOINT_BITS: u32 = 4;

/// The first address of a thing, and the first one past it.
type Extent = (u64, u64);

fn extent(base: u64, bits: u32) -> Extent {
    (base, base.saturating_add(1 << bits))
}

fn overlap(a: Extent, b: Extent) -> bool {
    a.0 < b.1 && b.0 < a.1
}

/// The first defect of a layout.
pub fn defect(layout: &Layout) -> Option<Defect> {
    if layout.endpoint(layout.endpoints) > 1 << layout.memory_bits {
        return Some(Defect::Outside);
    }
    let places = 0..layout.untypeds.len();
    let defect = places.into_iter().find_map(|place| untyped_defect(layout, place));
    let taken = 2 + layout.threads + layout.endpoints + layout.untypeds.len() as u64;
    defect.or((taken > 1 << layout.root_radix).then_some(Defect::Slots))
}

fn untyped_defect(layout: &Layout, place: usize) -> Option<Defect> {
    let (base, bits) = layout.untypeds[place];
    let region = extent(base, bits);
    let earlier = &layout.untypeds[..place];
    if base % (1 << bits) != 0 {
        Some(Defect::Unaligned(place + 1))
    } else if region.1 > 1 << layout.memory_bits {
        Some(Defect::UntypedOutside(place + 1))
    } else if overlaps_boot_object(layout, region) || earlier.iter().any(|e| overlap(region, extent(e.0, e.1))) {
        Some(Defect::Overlap(place + 1))
    } else {
        None
    }
}

fn overlaps_boot_object(layout: &Layout, region: Extent) -> bool {
    let mut threads = (0..layout.threads).map(|index| extent(layout.thread(index), TCB_BITS));
    let mut endpoints = (0..layout.endpoints).map(|index| extent(layout.endpoint(index), ENDPOINT_BITS));
    overlap(region, extent(0, SLOT_BITS + layout.root_radix))
        || threads.any(|thread| overlap(region, thread))
        || endpoints.any(|endpoint| overlap(region, endpoint))
}
