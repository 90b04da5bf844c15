//! What a script can do for a reason: a cause, some lines that leave it the cause, and a refusal.
//! One function a move, as in `scripts::moves`.

use model::layout::{checksum, BLOCK_LENGTH, INFO_CLASS};
use model::record::Mode;
use scripts::draft::Draft;
use scripts::moves::{look, low_supply, set_supply, unseal, Move, Moves};

pub const CAUSES: &Moves = &[
    (2, sealed),
    (3, none_loaded),
    (3, block_a),
    (4, class),
    (1, class_set_to_0),
    (4, wrong_checksum),
    (2, supply),
];

/// A block that no class has, and none of 1 to 3.
const NO_BLOCK: u8 = 0xFF;

/// Up to three of these moves.
fn some(draft: &mut Draft, moves: &[Move]) {
    for _ in 0..draft.random.below(4) {
        let next = draft.random.pick(moves);
        next(draft);
    }
}

// Refusals

/// 3: 0x3E or 0x61 while sealed.
fn sealed(draft: &mut Draft) {
    draft.open_with_control(1);
    start_anew(draft);
    some(draft, &[start_anew, half_key, refused_load, set_control, look, refused_read, set_supply]);
    let register = draft.random.pick(&[0x3E, 0x61]);
    draft.write(register, &[0]);
}

/// 6: a byte for 0x40 to 0x60 with none loaded.
fn none_loaded(draft: &mut Draft) {
    if draft.random.chance(70) {
        let control = draft.random.pick(&[0, 1]);
        draft.open_with_control(control);
    }
    load(draft);
    unload(draft);
    if draft.mode() != Mode::Sealed && draft.random.chance(40) {
        load_and_unload(draft);
    }
    some(draft, &[unload, refused_load, half_key, unseal, look, refused_read, set_supply]);
    window_byte(draft);
}

/// 7: the same with block A loaded while sealed.
fn block_a(draft: &mut Draft) {
    if draft.mode() != Mode::Sealed {
        start_anew(draft);
    }
    if draft.random.chance(50) {
        load(draft);
    }
    load_a(draft);
    some(draft, &[load_a, window_byte, refused_load, half_key, look, refused_read, set_supply]);
    window_byte(draft);
}

/// 4 or 5: 0x3F in general access.
fn class(draft: &mut Draft) {
    draft.open_with_control(0);
    let class = draft.any_class();
    let any = draft.random.byte();
    let class = draft.random.pick(&[class, any]);
    let bytes = [class, NO_BLOCK];
    let count = draft.random.between(1, 2);
    draft.write(0x3E, &bytes[..count]);
    some(draft, &[same_class, refused_load, set_control, look, refused_read, set_supply]);
    refused_load(draft);
}

/// The same with the class 0 of power-on, which sealing and reset leave as it is.
pub fn class_since_power_on(draft: &mut Draft) {
    draft.open_with_control(0);
    refused_load(draft);
    start_anew(draft);
    some(draft, &[same_class, half_key]);
    draft.open_with_control(0);
    refused_load(draft);
}

fn class_set_to_0(draft: &mut Draft) {
    let word = draft.random.pick(&[0x0020, 0x0041]);
    class_set_to_0_by(draft, word);
}

/// The same with another class set to 0 by sealing or reset.
pub fn class_set_to_0_by(draft: &mut Draft, word: u16) {
    draft.open_with_control(0);
    let class = draft.any_class().max(1);
    draft.write(0x3E, &[class]);
    draft.word(word);
    some(draft, &[start_anew, refused_load, half_key, look]);
    draft.open_with_control(0);
    some(draft, &[same_class, refused_load]);
    refused_load(draft);
}

/// 8: another byte for 0x60 than the window's checksum.
fn wrong_checksum(draft: &mut Draft) {
    match draft.random.below(4) {
        0 => start_anew(draft),
        1 => {}
        control => draft.open_with_control(control as u8 - 2),
    }
    load(draft);
    some(draft, &[edit, same_window, load_again]);
    some(
        draft,
        &[commit, wrong_commit, refused_load, set_bad_control, look, refused_read, set_supply],
    );
    if draft.random.chance(50) {
        // what is loaded stays loaded when a key opens the gauge
        unseal(draft);
    }
    wrong_commit(draft);
}

/// 17: a commit on a low supply; and 1: a supply above its range.
fn supply(draft: &mut Draft) {
    load(draft);
    low_supply(draft);
    some(draft, &[edit, same_window, start_anew, above_range, look, refused_read]);
    load(draft);
    some(draft, &[edit, above_range, wrong_commit]);
    if draft.random.chance(50) {
        commit(draft);
    } else {
        let window = draft.any_window();
        draft.write(0x40, &[&window[..], &[checksum(&window)]].concat());
    }
    if draft.random.chance(70) {
        draft.supply(2_700);
        commit(draft);
    }
}

// What they are made of

fn above_range(draft: &mut Draft) {
    let any = draft.random.between(4_501, 0xFFFF) as u16;
    let millivolts = draft.random.pick(&[4_501, 0xFFFF, any]);
    draft.supply(millivolts);
}

fn start_anew(draft: &mut Draft) {
    let word = draft.random.pick(&[0x0020, 0x0041]);
    draft.word(word);
}

/// The first word of the unseal key: it waits.
fn half_key(draft: &mut Draft) {
    let [word, _] = draft.unseal_words();
    draft.word(word);
}

/// Unloads, if not sealed.
fn set_control(draft: &mut Draft) {
    let control = draft.gauge.record.control;
    draft.write(0x61, &[control]);
}

fn set_bad_control(draft: &mut Draft) {
    let control = draft.random.byte().max(2);
    draft.write(0x61, &[control]);
}

fn same_class(draft: &mut Draft) {
    let class = draft.gauge.record.class;
    draft.write(0x3E, &[class]);
}

/// Block B or C, which a sealed gauge can edit.
fn load(draft: &mut Draft) {
    let block = draft.random.between(1, 2) as u8;
    if draft.gauge.record.general_access() {
        draft.write(0x3E, &[INFO_CLASS, block]);
    } else {
        draft.write(0x3F, &[block + 1]);
    }
}

/// Block A without general access, sometimes with a window byte after it.
fn load_a(draft: &mut Draft) {
    let bytes = [1, draft.random.byte()];
    let count = draft.random.between(1, 2);
    draft.write(0x3F, &bytes[..count]);
}

fn load_again(draft: &mut Draft) {
    let block = draft.gauge.record.block;
    draft.write(0x3F, &[block]);
}

fn refused_load(draft: &mut Draft) {
    draft.write(0x3F, &[NO_BLOCK]);
}

/// As the mode lets it.
fn unload(draft: &mut Draft) {
    if draft.mode() == Mode::Sealed {
        return start_anew(draft);
    }
    let class = draft.any_class();
    match draft.random.below(4) {
        0 => draft.write(0x3E, &[class]),
        1 => same_class(draft),
        2 => set_control(draft),
        _ => start_anew(draft),
    }
}

/// 0x3E to 0x61 in one write: none is loaded before it and after it.
fn load_and_unload(draft: &mut Draft) {
    let window = draft.any_window();
    let block = draft.random.between(1, 2) as u8;
    let control = draft.gauge.record.control;
    let bytes = [&[INFO_CLASS, block], &window[..], &[checksum(&window), control]].concat();
    draft.write(0x3E, &bytes);
}

/// A byte for the window or for 0x60.
fn window_byte(draft: &mut Draft) {
    let register = draft.random.between(0x40, 0x60) as u8;
    let byte = draft.random.byte();
    draft.write(register, &[byte]);
}

fn edit(draft: &mut Draft) {
    let place = draft.random.below(BLOCK_LENGTH);
    let byte = draft.random.byte();
    draft.write(0x40 + place as u8, &[byte]);
}

/// A run of window bytes as they are.
fn same_window(draft: &mut Draft) {
    let window = draft.gauge.record.window;
    let place = draft.random.below(BLOCK_LENGTH);
    let end = draft.random.between(place + 1, BLOCK_LENGTH);
    draft.write(0x40 + place as u8, &window[place..end]);
}

fn commit(draft: &mut Draft) {
    let sum = checksum(&draft.gauge.record.window);
    draft.write(0x60, &[sum]);
}

/// A wrong checksum alone, or after the window's last bytes: as they are, or others.
fn wrong_commit(draft: &mut Draft) {
    let mut window = draft.gauge.record.window;
    let place = draft.random.pick(&[BLOCK_LENGTH, BLOCK_LENGTH, BLOCK_LENGTH - 1, 0]);
    if draft.random.chance(50) {
        window[place..].fill_with(|| draft.random.byte());
    }
    let wrong = checksum(&window).wrapping_add(draft.random.between(1, 0xFF) as u8);
    draft.write(0x40 + place as u8, &[&window[place..], &[wrong]].concat());
}

fn refused_read(draft: &mut Draft) {
    let (register, count) = draft.random.pick(&[(0x7F, 2), (0x00, 0), (0x80, 1), (0x40, 0xFF)]);
    draft.read(register, count);
}
