//! Safe functions over the C interface; include/wagonepoch.h says what each call asks for and leaves. A refusal is an error.
mod c {
    extern "C" {
        pub fn wagonepoch_rooted_levels(
            starts: *const u16, starts_len: usize, neighbours: *const u16, neighbours_len: usize, root: u16,
            levels: *mut u16, levels_len: usize, sizes: *mut u16, sizes_len: usize, figures: *mut u64, figures_len: usize,
        ) -> u16;
        pub fn wagonepoch_measures(
            starts: *const u16, starts_len: usize, neighbours: *const u16, neighbours_len: usize, counts: *const u16, counts_len: usize,
            numbering: *const u16, numbering_len: usize, scratch: *mut u16, scratch_len: usize, figures: *mut u64, figures_len: usize,
        ) -> u16;
        pub fn wagonepoch_run(
            starts: *const u16, starts_len: usize, neighbours: *const u16, neighbours_len: usize, counts: *const u16, counts_len: usize,
            numbers: *mut u16, numbers_len: usize, levels: *mut u16, levels_len: usize, passes: *mut u16, passes_len: usize,
            scratch: *mut u16, scratch_len: usize, figures: *mut u64, figures_len: usize,
        ) -> u16;
        pub fn wagonepoch_reverse_cuthill_mckee(
            starts: *const u16, starts_len: usize, neighbours: *const u16, neighbours_len: usize, counts: *const u16, counts_len: usize,
            numbers: *mut u16, numbers_len: usize, levels: *mut u16, levels_len: usize, passes: *mut u16, passes_len: usize,
            scratch: *mut u16, scratch_len: usize, figures: *mut u64, figures_len: usize,
        ) -> u16;
        pub fn wagonepoch_import_numbering(
            starts: *const u16, starts_len: usize, neighbours: *const u16, neighbours_len: usize, counts: *const u16, counts_len: usize,
            pairs: *const u16, pairs_len: usize, bandwidth: u64, profile: u64, front: u64,
            numbers: *mut u16, numbers_len: usize, scratch: *mut u16, scratch_len: usize,
        ) -> u16;
        pub fn wagonepoch_eliminate(
            starts: *const u16, starts_len: usize, neighbours: *const u16, neighbours_len: usize, counts: *const u16, counts_len: usize,
            numbering: *const u16, numbering_len: usize, scratch: *mut u16, scratch_len: usize, bytes: *mut u8, bytes_len: usize,
            figures: *mut u64, figures_len: usize,
        ) -> u16;
        pub fn wagonepoch_store_map(
            starts: *const u16, starts_len: usize, neighbours: *const u16, neighbours_len: usize, counts: *const u16, counts_len: usize,
            numbering: *const u16, numbering_len: usize, scratch: *mut u16, scratch_len: usize, first: *mut u16, first_len: usize,
            place: *mut u32, place_len: usize, figures: *mut u64, figures_len: usize,
        ) -> u16;
        pub fn wagonepoch_mesh(
            n: usize, elements: *const u16, elements_len: usize, starts: *mut u16, starts_len: usize, neighbours: *mut u16, neighbours_len: usize,
            scratch: *mut u16, scratch_len: usize, figures: *mut u64, figures_len: usize,
        ) -> u16;
    }
}

/// How many nodes a start list has; of an empty one none, so that the call itself refuses it.
fn nodes(starts: &[u16]) -> usize {
    starts.len().saturating_sub(1)
}

fn refused(call: &str, number: u16) -> Result<(), String> {
    if number == 0 { Ok(()) } else { Err(format!("{call}: refused {number}")) }
}

/// The two lists of the mesh of n nodes.
pub fn mesh(n: usize, elements: &[u16]) -> Result<(Vec<u16>, Vec<u16>), String> {
    let (mut starts, mut neighbours, mut scratch, mut figures) = (vec![0; 4097], vec![0; 32768], vec![0; 4096], [0; 1]);
    // each pointer goes with its own list's length, and the lists are different ones; so below
    refused("mesh", unsafe {
        c::wagonepoch_mesh(
            n, elements.as_ptr(), elements.len(), starts.as_mut_ptr(), starts.len(), neighbours.as_mut_ptr(), neighbours.len(),
            scratch.as_mut_ptr(), scratch.len(), figures.as_mut_ptr(), figures.len(),
        )
    })?;
    starts.truncate(n + 1);
    neighbours.truncate(figures[0] as usize);
    Ok((starts, neighbours))
}

/// What the levels rooted at a node are: the level of each node, 0 outside its part; the size of each level in order, 0 after the depth; depth,
/// width, nodes reached.
pub struct Rooted {
    #[allow(dead_code)]
    pub levels: Vec<u16>,
    pub sizes: Vec<u16>,
    pub figures: [u64; 3],
}

pub fn rooted_levels(starts: &[u16], neighbours: &[u16], root: u16) -> Result<Rooted, String> {
    let n = nodes(starts);
    let mut rooted = Rooted { levels: vec![0; n], sizes: vec![0; n], figures: [0; 3] };
    refused("rooted levels", unsafe {
        c::wagonepoch_rooted_levels(
            starts.as_ptr(), starts.len(), neighbours.as_ptr(), neighbours.len(), root, rooted.levels.as_mut_ptr(), n,
            rooted.sizes.as_mut_ptr(), n, rooted.figures.as_mut_ptr(), rooted.figures.len(),
        )
    })?;
    Ok(rooted)
}

/// Bandwidth, profile and front, in unknowns; counts has how many each node has, 1 to 6.
pub fn measures(starts: &[u16], neighbours: &[u16], counts: &[u16], numbering: &[u16]) -> Result<[u64; 3], String> {
    let (mut scratch, mut figures) = (vec![0; nodes(starts)], [0; 3]);
    refused("measures", unsafe {
        c::wagonepoch_measures(
            starts.as_ptr(), starts.len(), neighbours.as_ptr(), neighbours.len(), counts.as_ptr(), counts.len(),
            numbering.as_ptr(), numbering.len(), scratch.as_mut_ptr(), scratch.len(), figures.as_mut_ptr(), figures.len(),
        )
    })?;
    Ok(figures)
}

/// What the whole run gives, and reverse Cuthill-McKee: new number and level of each node; the passes of each part, parts by lowest node; nodes,
/// parts, bandwidth, profile, front, levels, width, where bandwidth, profile, front and width count unknowns.
pub struct Order {
    pub numbers: Vec<u16>,
    #[allow(dead_code)]
    pub levels: Vec<u16>,
    pub passes: Vec<u16>,
    pub figures: [u64; 7],
}

/// Either call; they have the same parameters.
type OrderCall = unsafe extern "C" fn(
    *const u16, usize, *const u16, usize, *const u16, usize, *mut u16, usize, *mut u16, usize, *mut u16, usize, *mut u16, usize,
    *mut u64, usize,
) -> u16;

fn order_by(name: &str, call: OrderCall, starts: &[u16], neighbours: &[u16], counts: &[u16]) -> Result<Order, String> {
    let n = nodes(starts);
    let mut scratch = vec![0; 6 * n];
    let mut made = Order { numbers: vec![0; n], levels: vec![0; n], passes: vec![0; n], figures: [0; 7] };
    refused(name, unsafe {
        call(
            starts.as_ptr(), starts.len(), neighbours.as_ptr(), neighbours.len(), counts.as_ptr(), counts.len(),
            made.numbers.as_mut_ptr(), n, made.levels.as_mut_ptr(), n, made.passes.as_mut_ptr(), n, scratch.as_mut_ptr(), scratch.len(),
            made.figures.as_mut_ptr(), made.figures.len(),
        )
    })?;
    made.passes.truncate(made.figures[1] as usize);
    Ok(made)
}

pub fn run(starts: &[u16], neighbours: &[u16], counts: &[u16]) -> Result<Order, String> {
    order_by("run", c::wagonepoch_run, starts, neighbours, counts)
}

pub fn reverse_cuthill_mckee(starts: &[u16], neighbours: &[u16], counts: &[u16]) -> Result<Order, String> {
    order_by("reverse Cuthill-McKee", c::wagonepoch_reverse_cuthill_mckee, starts, neighbours, counts)
}

/// The full numbering of another tool's pairs, old number then new, one after the other; a node that no pair names keeps its number. The figures are
/// the tool's bandwidth, profile and front, in unknowns, which must be those of the numbering.
pub fn import_numbering(starts: &[u16], neighbours: &[u16], counts: &[u16], pairs: &[u16], figures: [u64; 3]) -> Result<Vec<u16>, String> {
    let n = nodes(starts);
    let (mut numbers, mut scratch) = (vec![0; n], vec![0; n]);
    refused("import", unsafe {
        c::wagonepoch_import_numbering(
            starts.as_ptr(), starts.len(), neighbours.as_ptr(), neighbours.len(), counts.as_ptr(), counts.len(), pairs.as_ptr(), pairs.len(),
            figures[0], figures[1], figures[2], numbers.as_mut_ptr(), n, scratch.as_mut_ptr(), n,
        )
    })?;
    Ok(numbers)
}

/// The mark bytes, for a numbering of this profile; the marks that are 1, and the newly joined pairs.
pub fn eliminate(starts: &[u16], neighbours: &[u16], counts: &[u16], numbering: &[u16], profile: u64) -> Result<(Vec<u8>, [u64; 2]), String> {
    let (mut scratch, mut bytes, mut figures) = (vec![0; nodes(starts)], vec![0; (profile as usize + 7) / 8], [0; 2]);
    refused("eliminate", unsafe {
        c::wagonepoch_eliminate(
            starts.as_ptr(), starts.len(), neighbours.as_ptr(), neighbours.len(), counts.as_ptr(), counts.len(),
            numbering.as_ptr(), numbering.len(), scratch.as_mut_ptr(), scratch.len(), bytes.as_mut_ptr(), bytes.len(),
            figures.as_mut_ptr(), figures.len(),
        )
    })?;
    Ok((bytes, figures))
}

/// Where the rows of a store stand, one for each unknown: row q has the places from `place[q - 1]` on, for the unknowns `first[q - 1]` to q - 1.
/// Behind the last row `place` has the count of places.
pub struct StoreMap {
    pub first: Vec<u16>,
    pub place: Vec<u32>,
}

pub fn store_map(starts: &[u16], neighbours: &[u16], counts: &[u16], numbering: &[u16]) -> Result<StoreMap, String> {
    let n = nodes(starts);
    let (mut scratch, mut figures) = (vec![0; n], [0; 2]);
    let mut map = StoreMap { first: vec![0; 6 * n], place: vec![0; 6 * n + 1] };
    refused("store map", unsafe {
        c::wagonepoch_store_map(
            starts.as_ptr(), starts.len(), neighbours.as_ptr(), neighbours.len(), counts.as_ptr(), counts.len(),
            numbering.as_ptr(), numbering.len(), scratch.as_mut_ptr(), scratch.len(), map.first.as_mut_ptr(), map.first.len(),
            map.place.as_mut_ptr(), map.place.len(), figures.as_mut_ptr(), figures.len(),
        )
    })?;
    let unknowns = figures[1] as usize;
    map.first.truncate(unknowns);
    map.place.truncate(unknowns + 1);
    Ok(map)
}
