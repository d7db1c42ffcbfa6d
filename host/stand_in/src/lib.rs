//! The C functions of documents 01 and 02 over the reference. It stands in for the archive
//! while the tests themselves are tried out, and is no part of the gate.

use reference::{category, check, converted, joined, net, pnml, saved, written};

/// # Safety
/// The pointer is that of `len` readable bytes.
unsafe fn bytes<'a>(pointer: *const u8, len: usize) -> &'a [u8] {
    unsafe { std::slice::from_raw_parts(pointer, len) }
}

/// # Safety
/// The pointer is that of `len` bytes that nothing else reads or writes.
unsafe fn room<'a>(pointer: *mut u8, len: usize) -> &'a mut [u8] {
    unsafe { std::slice::from_raw_parts_mut(pointer, len) }
}

/// # Safety
/// See `include/desk.h`.
#[unsafe(no_mangle)]
pub unsafe extern "C" fn desk_check(
    ask: *const u8,
    ask_len: usize,
    net: *const u8,
    net_len: usize,
    formulas: *const u8,
    formulas_len: usize,
    tree: *const u8,
    tree_len: usize,
    place: *mut u64,
) -> u32 {
    let verdict = unsafe {
        check::check(
            bytes(ask, ask_len),
            bytes(net, net_len),
            bytes(formulas, formulas_len),
            bytes(tree, tree_len),
        )
    };
    let (number, at) = verdict.numbers();
    unsafe { *place = at };
    number
}

/// # Safety
/// See `include/desk.h`.
#[unsafe(no_mangle)]
pub unsafe extern "C" fn desk_fire(
    places: u32,
    marking: u64,
    net: *const u8,
    net_len: usize,
    transition: u32,
    record: *mut u64,
    after: *mut u64,
    missing: *mut u64,
    occupied: *mut u64,
) -> u32 {
    let answer = net::fire(places, marking, unsafe { bytes(net, net_len) }, transition);
    let (number, at, marking, lacking, taken) = answer.numbers();
    unsafe {
        *record = at;
        *after = marking;
        *missing = lacking;
        *occupied = taken;
    }
    number
}

/// # Safety
/// See `include/desk.h`.
#[unsafe(no_mangle)]
pub unsafe extern "C" fn desk_categories(
    translation: *const u8,
    translation_len: usize,
    house: *const u8,
    house_len: usize,
    record: *mut u64,
) -> u32 {
    let answer =
        unsafe { category::check(bytes(translation, translation_len), bytes(house, house_len)) };
    let (number, at) = match answer {
        Ok(()) => (0, 0),
        Err(refusal) => (refusal.number, refusal.record),
    };
    unsafe { *record = at };
    number
}

/// # Safety
/// See `include/desk.h`.
#[unsafe(no_mangle)]
pub unsafe extern "C" fn desk_label(
    translation: *const u8,
    translation_len: usize,
    house: *const u8,
    house_len: usize,
    action: u16,
    file: *mut u32,
    offset: *mut u32,
    length: *mut u32,
) {
    let label = unsafe {
        let translation = bytes(translation, translation_len);
        category::label(translation, bytes(house, house_len), action)
    };
    unsafe {
        *file = label.file;
        *offset = label.offset;
        *length = label.length;
    }
}

/// # Safety
/// See `include/desk.h`.
#[unsafe(no_mangle)]
pub unsafe extern "C" fn desk_pnml_write(
    places: u32,
    marking: u64,
    net: *const u8,
    net_len: usize,
    text: *mut u8,
    text_len: usize,
    record: *mut u64,
    length: *mut u64,
) -> u32 {
    let answer = unsafe {
        let net = bytes(net, net_len);
        pnml::write(places, marking, net, room(text, text_len))
    };
    let (number, at, written) = match answer {
        Ok(written) => (0, 0, written as u64),
        Err(refusal) => (refusal.number, refusal.record, 0),
    };
    unsafe {
        *record = at;
        *length = written;
    }
    number
}

/// # Safety
/// See `include/desk.h`.
#[unsafe(no_mangle)]
pub unsafe extern "C" fn desk_pnml_read(
    text: *const u8,
    text_len: usize,
    net: *mut u8,
    net_len: usize,
    offset: *mut u64,
    places: *mut u32,
    marking: *mut u64,
    length: *mut u64,
) -> u32 {
    let answer = unsafe { pnml::read(bytes(text, text_len), room(net, net_len)) };
    let (number, at, read) = match answer {
        Ok(read) => (0, 0, read),
        Err(refusal) => (refusal.number, refusal.record, pnml::Read::default()),
    };
    unsafe {
        *offset = at;
        *places = read.places;
        *marking = read.marking;
        *length = read.length as u64;
    }
    number
}

/// # Safety
/// See `include/desk.h`.
#[unsafe(no_mangle)]
pub unsafe extern "C" fn desk_write_tree(
    ask: *const u8,
    ask_len: usize,
    net: *const u8,
    net_len: usize,
    formulas: *const u8,
    formulas_len: usize,
    tree: *mut u8,
    tree_len: usize,
    record: *mut u64,
    side: *mut u32,
    nodes: *mut u64,
) -> u32 {
    let answer = unsafe {
        written::write(
            bytes(ask, ask_len),
            bytes(net, net_len),
            bytes(formulas, formulas_len),
            room(tree, tree_len),
        )
    };
    let (number, at, true_side, count) = match answer {
        Ok(written) => (0, 0, written.side.into(), written.nodes),
        Err(refusal) => (refusal.number, refusal.record, 0, 0),
    };
    unsafe {
        *record = at;
        *side = true_side;
        *nodes = count;
    }
    number
}

/// # Safety
/// See `include/desk.h`.
#[unsafe(no_mangle)]
pub unsafe extern "C" fn desk_convert_categories(
    file: *const u8,
    file_len: usize,
    converted: *mut u8,
    converted_len: usize,
    record: *mut u64,
    rewritten: *mut u64,
) -> u32 {
    let answer = unsafe {
        let converted = room(converted, converted_len);
        converted::convert(bytes(file, file_len), converted)
    };
    let (number, at, count) = match answer {
        Ok(count) => (0, 0, count),
        Err(refusal) => (refusal.number, refusal.record, 0),
    };
    unsafe {
        *record = at;
        *rewritten = count;
    }
    number
}

/// # Safety
/// See `include/desk.h`.
#[unsafe(no_mangle)]
pub unsafe extern "C" fn desk_join(
    first_places: u32,
    first_marking: u64,
    first: *const u8,
    first_len: usize,
    second_places: u32,
    second_marking: u64,
    second: *const u8,
    second_len: usize,
    net: *mut u8,
    net_len: usize,
    record: *mut u64,
    places: *mut u32,
    marking: *mut u64,
    length: *mut u64,
) -> u32 {
    let first = joined::Half {
        places: first_places,
        marking: first_marking,
        net: unsafe { bytes(first, first_len) },
    };
    let second = joined::Half {
        places: second_places,
        marking: second_marking,
        net: unsafe { bytes(second, second_len) },
    };
    let answer = joined::join(first, second, unsafe { room(net, net_len) });
    let (number, at, joined) = match answer {
        Ok(joined) => (0, 0, joined),
        Err(refusal) => (refusal.number, refusal.record, joined::Joined::default()),
    };
    unsafe {
        *record = at;
        *places = joined.places;
        *marking = joined.marking;
        *length = joined.length as u64;
    }
    number
}

/// # Safety
/// See `include/desk.h`.
#[unsafe(no_mangle)]
pub unsafe extern "C" fn desk_save_room(
    ask: *const u8,
    ask_len: usize,
    net: *const u8,
    net_len: usize,
    formulas: *const u8,
    formulas_len: usize,
    tree: *const u8,
    tree_len: usize,
    new_ask: *mut u8,
    new_ask_len: usize,
    new_formulas: *mut u8,
    new_formulas_len: usize,
    new_tree: *mut u8,
    new_tree_len: usize,
    place: *mut u64,
    count: *mut u64,
) -> u32 {
    let answer = unsafe {
        let rooms = [
            room(new_ask, new_ask_len),
            room(new_formulas, new_formulas_len),
            room(new_tree, new_tree_len),
        ];
        saved::save(
            bytes(ask, ask_len),
            bytes(net, net_len),
            bytes(formulas, formulas_len),
            bytes(tree, tree_len),
            rooms,
        )
    };
    let (number, at, left) = match answer {
        Ok(left) => (0, 0, left),
        Err(refusal) => (refusal.number, refusal.record, 0),
    };
    unsafe {
        *place = at;
        *count = left;
    }
    number
}
