//! The C interface of the archive under test, as plain functions. Out-parameters
//! start with values that no call gives, so that one left unwritten shows.

mod c {
    unsafe extern "C" {
        pub fn desk_check(
            ask: *const u8,
            ask_len: usize,
            net: *const u8,
            net_len: usize,
            formulas: *const u8,
            formulas_len: usize,
            tree: *const u8,
            tree_len: usize,
            place: *mut u64,
        ) -> u32;
        pub fn desk_fire(
            places: u32,
            marking: u64,
            net: *const u8,
            net_len: usize,
            transition: u32,
            record: *mut u64,
            after: *mut u64,
            missing: *mut u64,
            occupied: *mut u64,
        ) -> u32;
        pub fn desk_categories(
            translation: *const u8,
            translation_len: usize,
            house: *const u8,
            house_len: usize,
            record: *mut u64,
        ) -> u32;
        pub fn desk_label(
            translation: *const u8,
            translation_len: usize,
            house: *const u8,
            house_len: usize,
            action: u16,
            file: *mut u32,
            offset: *mut u32,
            length: *mut u32,
        );
        pub fn desk_pnml_write(
            places: u32,
            marking: u64,
            net: *const u8,
            net_len: usize,
            room: *mut u8,
            room_len: usize,
            record: *mut u64,
            length: *mut u64,
        ) -> u32;
        pub fn desk_pnml_read(
            text: *const u8,
            text_len: usize,
            room: *mut u8,
            room_len: usize,
            offset: *mut u64,
            places: *mut u32,
            marking: *mut u64,
            length: *mut u64,
        ) -> u32;
        pub fn desk_write_tree(
            ask: *const u8,
            ask_len: usize,
            net: *const u8,
            net_len: usize,
            formulas: *const u8,
            formulas_len: usize,
            room: *mut u8,
            room_len: usize,
            record: *mut u64,
            side: *mut u32,
            nodes: *mut u64,
        ) -> u32;
        pub fn desk_convert_categories(
            file: *const u8,
            file_len: usize,
            room: *mut u8,
            room_len: usize,
            record: *mut u64,
            rewritten: *mut u64,
        ) -> u32;
        pub fn desk_join(
            first_places: u32,
            first_marking: u64,
            first: *const u8,
            first_len: usize,
            second_places: u32,
            second_marking: u64,
            second: *const u8,
            second_len: usize,
            room: *mut u8,
            room_len: usize,
            record: *mut u64,
            places: *mut u32,
            marking: *mut u64,
            length: *mut u64,
        ) -> u32;
        pub fn desk_save_room(
            ask: *const u8,
            ask_len: usize,
            net: *const u8,
            net_len: usize,
            formulas: *const u8,
            formulas_len: usize,
            tree: *const u8,
            tree_len: usize,
            new_ask: *mut u8,
            new_ask_len: usize,
            new_formulas: *mut u8,
            new_formulas_len: usize,
            new_tree: *mut u8,
            new_tree_len: usize,
            place: *mut u64,
            count: *mut u64,
        ) -> u32;
    }
}

const UNWRITTEN: u64 = 0xDEAD_BEEF_DEAD_BEEF;

/// The number and the place.
pub fn check(ask: &[u8], net: &[u8], formulas: &[u8], tree: &[u8]) -> (u32, u64) {
    let mut place = UNWRITTEN;
    // SAFETY: the pointers and lengths are those of slices; the out-pointer is
    // that of a local.
    let number = unsafe {
        c::desk_check(
            ask.as_ptr(),
            ask.len(),
            net.as_ptr(),
            net.len(),
            formulas.as_ptr(),
            formulas.len(),
            tree.as_ptr(),
            tree.len(),
            &mut place,
        )
    };
    (number, place)
}

/// The number, the record, the marking after, the places missing and those occupied.
pub fn fire(places: u32, marking: u64, net: &[u8], transition: u32) -> (u32, u64, u64, u64, u64) {
    let mut record = UNWRITTEN;
    let mut after = UNWRITTEN;
    let mut missing = UNWRITTEN;
    let mut occupied = UNWRITTEN;
    // SAFETY: as in `check`.
    let number = unsafe {
        c::desk_fire(
            places,
            marking,
            net.as_ptr(),
            net.len(),
            transition,
            &mut record,
            &mut after,
            &mut missing,
            &mut occupied,
        )
    };
    (number, record, after, missing, occupied)
}

/// The number and the record.
pub fn categories(translation: &[u8], house: &[u8]) -> (u32, u64) {
    let mut record = UNWRITTEN;
    // SAFETY: as in `check`.
    let number = unsafe {
        c::desk_categories(
            translation.as_ptr(),
            translation.len(),
            house.as_ptr(),
            house.len(),
            &mut record,
        )
    };
    (number, record)
}

/// The file, offset and length.
pub fn label(translation: &[u8], house: &[u8], action: u16) -> (u32, u32, u32) {
    let mut file = UNWRITTEN as u32;
    let mut offset = UNWRITTEN as u32;
    let mut length = UNWRITTEN as u32;
    // SAFETY: as in `check`.
    unsafe {
        c::desk_label(
            translation.as_ptr(),
            translation.len(),
            house.as_ptr(),
            house.len(),
            action,
            &mut file,
            &mut offset,
            &mut length,
        );
    }
    (file, offset, length)
}

/// The number, the record and the length.
pub fn pnml_write(places: u32, marking: u64, net: &[u8], room: &mut [u8]) -> (u32, u64, u64) {
    let mut record = UNWRITTEN;
    let mut length = UNWRITTEN;
    // SAFETY: as in `check`.
    let number = unsafe {
        c::desk_pnml_write(
            places,
            marking,
            net.as_ptr(),
            net.len(),
            room.as_mut_ptr(),
            room.len(),
            &mut record,
            &mut length,
        )
    };
    (number, record, length)
}

/// The number, the offset, the places, the marking and the length.
pub fn pnml_read(text: &[u8], room: &mut [u8]) -> (u32, u64, u32, u64, u64) {
    let mut offset = UNWRITTEN;
    let mut places = UNWRITTEN as u32;
    let mut marking = UNWRITTEN;
    let mut length = UNWRITTEN;
    // SAFETY: as in `check`.
    let number = unsafe {
        c::desk_pnml_read(
            text.as_ptr(),
            text.len(),
            room.as_mut_ptr(),
            room.len(),
            &mut offset,
            &mut places,
            &mut marking,
            &mut length,
        )
    };
    (number, offset, places, marking, length)
}

/// The number, the record, the side and the nodes.
pub fn write_tree(
    ask: &[u8],
    net: &[u8],
    formulas: &[u8],
    room: &mut [u8],
) -> (u32, u64, u32, u64) {
    let mut record = UNWRITTEN;
    let mut side = UNWRITTEN as u32;
    let mut nodes = UNWRITTEN;
    // SAFETY: as in `check`.
    let number = unsafe {
        c::desk_write_tree(
            ask.as_ptr(),
            ask.len(),
            net.as_ptr(),
            net.len(),
            formulas.as_ptr(),
            formulas.len(),
            room.as_mut_ptr(),
            room.len(),
            &mut record,
            &mut side,
            &mut nodes,
        )
    };
    (number, record, side, nodes)
}

/// The number, the record and the records rewritten.
pub fn convert_categories(file: &[u8], room: &mut [u8]) -> (u32, u64, u64) {
    let mut record = UNWRITTEN;
    let mut rewritten = UNWRITTEN;
    // SAFETY: as in `check`.
    let number = unsafe {
        c::desk_convert_categories(
            file.as_ptr(),
            file.len(),
            room.as_mut_ptr(),
            room.len(),
            &mut record,
            &mut rewritten,
        )
    };
    (number, record, rewritten)
}

/// The number, the record, the places, the marking and the length.
pub fn join(
    first_places: u32,
    first_marking: u64,
    first: &[u8],
    second_places: u32,
    second_marking: u64,
    second: &[u8],
    room: &mut [u8],
) -> (u32, u64, u32, u64, u64) {
    let mut record = UNWRITTEN;
    let mut places = UNWRITTEN as u32;
    let mut marking = UNWRITTEN;
    let mut length = UNWRITTEN;
    // SAFETY: as in `check`.
    let number = unsafe {
        c::desk_join(
            first_places,
            first_marking,
            first.as_ptr(),
            first.len(),
            second_places,
            second_marking,
            second.as_ptr(),
            second.len(),
            room.as_mut_ptr(),
            room.len(),
            &mut record,
            &mut places,
            &mut marking,
            &mut length,
        )
    };
    (number, record, places, marking, length)
}

/// The number, the place and the count. The rooms are those for the ask, the formula table
/// and the tree.
pub fn save_room(
    ask: &[u8],
    net: &[u8],
    formulas: &[u8],
    tree: &[u8],
    rooms: [&mut [u8]; 3],
) -> (u32, u64, u64) {
    let [new_ask, new_formulas, new_tree] = rooms;
    let mut place = UNWRITTEN;
    let mut count = UNWRITTEN;
    // SAFETY: as in `check`.
    let number = unsafe {
        c::desk_save_room(
            ask.as_ptr(),
            ask.len(),
            net.as_ptr(),
            net.len(),
            formulas.as_ptr(),
            formulas.len(),
            tree.as_ptr(),
            tree.len(),
            new_ask.as_mut_ptr(),
            new_ask.len(),
            new_formulas.as_mut_ptr(),
            new_formulas.len(),
            new_tree.as_mut_ptr(),
            new_tree.len(),
            &mut place,
            &mut count,
        )
    };
    (number, place, count)
}
