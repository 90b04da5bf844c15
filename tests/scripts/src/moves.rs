//! What a script can do next: one function a move, each adding a few frames to a draft.

use crate::draft::Draft;
use generator::flash::{self, COMMAND_WORDS};
use model::keys::KEYS_LENGTH;
use model::layout::{checksum, BLOCK_LENGTH, INFO_CLASS, KEY_CLASS, KEY_CLASS_MIN_LENGTH};
use model::record::Mode;

pub type Move = fn(&mut Draft);
pub type Moves = [(usize, Move)];

/// Control words and reads of their result.
pub const WORDS: &Moves = &[
    (4, status),
    (1, seal),
    (1, reset),
    (1, any_word),
    (2, half_word),
    (2, low_byte_again),
    (1, word_and_more),
];
/// Keys, right and nearly right.
pub const KEYS: &Moves = &[
    (3, unseal),
    (3, full_access),
    (8, near_key),
    (3, status),
    (2, half_word),
    (1, seal),
    (1, look),
];
/// Block transfer in general access.
pub const TRANSFER: &Moves = &[
    (3, set_control),
    (4, set_class),
    (4, set_block),
    (10, load),
    (8, edit),
    (6, edit_past_end),
    (8, commit),
    (6, edit_and_commit),
    (4, across),
    (3, ready_again),
    (8, look),
];
/// The manufacturer blocks, as a sealed gauge or BlockDataControl 1 has them.
pub const INFO: &Moves = &[
    (6, set_block),
    (4, edit),
    (4, commit),
    (6, edit_and_commit),
    (2, across),
    (10, info_block),
    (4, look),
    (1, set_class),
];
/// Registers, spans and counts.
pub const SPANS: &Moves = &[
    (3, other_register),
    (2, high_register),
    (4, span_end),
    (2, write_nothing),
    (2, big_write),
    (3, read_count),
    (6, read_anywhere),
    (3, noise),
];
/// New keys, tried at once.
pub const REKEY: &Moves = &[(4, rekey), (1, near_key), (1, seal), (1, full_access)];
/// The block of the keys and those behind it.
pub const KEY_BLOCKS: &Moves = &[(8, key_block), (1, rekey), (1, seal), (1, look)];

/// The supply, and commits on it.
pub const SUPPLY: &Moves = &[
    (8, set_supply),
    (6, commit_on_supply),
    (6, refused_on_low_supply),
    (4, low_supply_restarted),
    (2, supply_between_key_words),
    (1, look),
];

/// One move of one of these tables.
pub fn step(draft: &mut Draft, tables: &[&Moves]) {
    let table = draft.random.pick(tables);
    let next = draft.random.weighted(table);
    next(draft);
}

/// Moves of these tables until the script has that many lines.
pub fn play(draft: &mut Draft, tables: &[&Moves], lines: usize) {
    let end = draft.lines + lines;
    while draft.lines < end {
        step(draft, tables);
    }
}

// Words and keys

fn status(draft: &mut Draft) {
    draft.word(0x0000);
    draft.read(0x00, 2);
}

pub fn seal(draft: &mut Draft) {
    draft.word(0x0020);
    look(draft);
}

fn reset(draft: &mut Draft) {
    draft.word(0x0041);
    look(draft);
}

fn any_word(draft: &mut Draft) {
    let word = draft.random.number() as u16;
    draft.word(word);
    draft.read(0x00, 2);
}

/// One byte of a word: the low byte stays, so a high byte alone makes a word with it.
fn half_word(draft: &mut Draft) {
    let [a, b] = draft.unseal_words();
    let word = draft.random.pick(&[a, b, 0x0000, 0x0020, 0x0041]);
    let [low, high] = word.to_le_bytes();
    if draft.random.chance(50) {
        draft.write(0x00, &[low]);
    } else {
        draft.write(0x01, &[high]);
    }
}

/// A word, and then a high byte alone: the low byte that was kept makes a command word with it.
fn low_byte_again(draft: &mut Draft) {
    let high = draft.random.byte();
    let [low, _] = draft.random.pick(&COMMAND_WORDS).to_le_bytes();
    draft.write(0x00, &[low, high]);
    draft.write(0x01, &[0x00]);
    look(draft);
}

/// A write that begins with a word and goes on into the registers after it.
fn word_and_more(draft: &mut Draft) {
    let [a, b] = draft.unseal_words();
    let bytes = [a.to_le_bytes(), b.to_le_bytes()].concat();
    let count = draft.random.between(3, 4);
    draft.write(0x00, &bytes[..count]);
}

/// The unseal key, sometimes with harmless frames between its words, or after wrong ones.
pub fn unseal(draft: &mut Draft) {
    if draft.random.chance(15) {
        each_byte_off(draft);
    }
    let [a, b] = draft.unseal_words();
    draft.word(a);
    if draft.random.chance(30) {
        let between =
            draft.random.pick(&[look as Move, set_block, other_register, write_nothing, edit]);
        between(draft);
    }
    draft.word(b);
    if draft.random.chance(15) {
        // the word that unsealed must not be the first half of the next key
        let [_, second] = draft.full_access_words();
        draft.word(second);
    }
    if draft.random.chance(30) {
        status(draft);
    }
}

pub fn full_access(draft: &mut Draft) {
    if draft.mode() == Mode::Sealed {
        unseal(draft);
    }
    let key = draft.full_access_words();
    draft.words(&key);
    if draft.random.chance(30) {
        status(draft);
    }
}

/// The words of the key that the gauge waits for, and those of the other one.
fn wanted_and_other(draft: &Draft) -> ([u16; 2], [u16; 2]) {
    match draft.mode() {
        Mode::Sealed => (draft.unseal_words(), draft.full_access_words()),
        _ => (draft.full_access_words(), draft.unseal_words()),
    }
}

/// The key that the gauge waits for with its first byte wrong, then with its second one, and so on.
fn each_byte_off(draft: &mut Draft) {
    for (word, shift) in [(0, 0), (0, 8), (1, 0), (1, 8)] {
        let (mut key, _) = wanted_and_other(draft);
        let (bit, any) = (1 << draft.random.below(8), draft.random.between(1, 0xFF) as u16);
        key[word] ^= draft.random.pick(&[bit, any]) << shift;
        draft.words(&key);
    }
}

/// Words that are nearly the key that the gauge waits for, or that are it with something before.
fn near_key(draft: &mut Draft) {
    let ([a, b], other) = wanted_and_other(draft);
    let any = draft.random.number() as u16;
    let command = draft.random.pick(&COMMAND_WORDS);
    let bit = 1 << draft.random.below(16);
    match draft.random.below(14) {
        0 | 1 => each_byte_off(draft),
        2 => draft.words(&[b, a]),
        3 => draft.words(&[a.swap_bytes(), b.swap_bytes()]),
        4 => draft.words(&[a, command, b]),
        5 => draft.words(&[a, 0x0000, b]),
        6 => draft.words(&[a, any, b]),
        7 => draft.words(&[a, a, b]),
        8 => draft.words(&[any, a, b]),
        9 => draft.words(&[a, b ^ bit, a, b]),
        10 => draft.words(&other),
        11 => draft.words(&[b, b]),
        12 => draft.words(&[a, command]),
        _ => draft.words(&[b]),
    }
    if draft.random.chance(60) {
        status(draft);
    }
}

// Block transfer

fn set_control(draft: &mut Draft) {
    let byte = match draft.random.below(8) {
        0 => 1,
        1 => 2,
        2 => draft.random.byte().max(2),
        3 => 0xFF,
        _ => 0,
    };
    draft.write(0x61, &[byte]);
}

fn set_class(draft: &mut Draft) {
    let class = draft.any_class();
    draft.write(0x3E, &[class]);
}

fn set_block(draft: &mut Draft) {
    let block = draft.any_block(draft.gauge.record.class);
    draft.write(0x3F, &[block]);
}

/// Class and block in one write.
fn load(draft: &mut Draft) {
    let class = draft.any_class();
    let block = draft.any_block(class);
    draft.write(0x3E, &[class, block]);
}

/// A run of window bytes.
fn edit(draft: &mut Draft) {
    let place = draft.random.below(BLOCK_LENGTH);
    let most = draft.random.pick(&[1, 2, 4, BLOCK_LENGTH]);
    let count = draft.random.between(1, most.min(BLOCK_LENGTH - place));
    let bytes = draft.random.bytes(count);
    draft.write(0x40 + place as u8, &bytes);
}

/// Window bytes at the end of the loaded block and past it; then what a commit stores of them.
fn edit_past_end(draft: &mut Draft) {
    let length = draft.loaded_length();
    if length == BLOCK_LENGTH {
        return edit(draft);
    }
    let place = draft.random.between(length.saturating_sub(1), BLOCK_LENGTH - 1);
    let most = draft.random.between(1, BLOCK_LENGTH - place);
    let bytes = draft.random.bytes(most);
    draft.write(0x40 + place as u8, &bytes);
    if draft.random.chance(50) {
        commit(draft);
    }
}

fn commit(draft: &mut Draft) {
    let window = draft.gauge.record.window;
    let byte = draft.any_checksum(&window);
    draft.write(0x60, &[byte]);
}

/// A write that begins at the window's start or at its first byte to be changed, which is 0x60 if
/// there is none, and ends at 0x60, 0x61 or 0x62.
fn edit_and_commit(draft: &mut Draft) {
    if draft.random.chance(30) {
        // what the block has stored may come back with the commit
        edit(draft);
    }
    let window = draft.changed_window();
    let alike = window.iter().zip(&draft.gauge.record.window).take_while(|(a, b)| a == b).count();
    let place = draft.random.pick(&[0, alike]);
    let control = draft.random.pick(&[0, 1, 2, 0x80]);
    let sum = draft.any_checksum(&window);
    let more = draft.random.between(1, 3);
    let bytes = [&window[place..], &[sum, control, 0][..more]].concat();
    draft.write(0x40 + place as u8, &bytes);
    if draft.random.chance(30) {
        look(draft);
    }
}

/// Class, block, window, checksum, control and one register more in a single write, begun or cut
/// anywhere.
fn across(draft: &mut Draft) {
    let class = draft.any_class();
    let block = draft.any_block(class);
    let window = draft.any_window();
    let sum = draft.any_checksum(&window);
    let control = draft.random.pick(&[0, 0, 1, 2]);
    let bytes = [&[class, block], &window[..], &[sum, control, 0]].concat();
    let first = draft.random.pick(&[0, 0, 0, 1, 2]);
    let cut = draft.random.between(first + 1, bytes.len());
    let end = draft.random.pick(&[35, 36, 36, bytes.len(), cut]);
    draft.write(0x3E + first as u8, &bytes[first..end]);
}

/// Back to general access, if it was lost.
fn ready_again(draft: &mut Draft) {
    if !draft.gauge.record.general_access() {
        draft.open_with_control(0);
    }
}

/// A manufacturer block edited and committed, as the mode lets it: through 0x3F with
/// BlockDataControl 1, or as a block of class 58.
fn info_block(draft: &mut Draft) {
    let block = draft.random.pick(&[0, 1, 2]);
    if draft.gauge.record.general_access() {
        draft.write(0x3E, &[INFO_CLASS, block]);
    } else {
        draft.write(0x3F, &[block + 1]);
    }
    change_loaded(draft);
    if draft.random.chance(20) {
        // what is loaded stays loaded when a key opens the gauge
        unseal(draft);
        change_loaded(draft);
    }
}

/// An edit and a commit, in two writes or in one.
fn change_loaded(draft: &mut Draft) {
    if draft.random.chance(50) {
        edit(draft);
        commit(draft);
    } else {
        edit_and_commit(draft);
    }
}

/// New keys committed, mostly in full access; then the gauge sealed and opened again with the old
/// key, the new one or both.
fn rekey(draft: &mut Draft) {
    draft.open_with_control(0);
    if draft.random.chance(70) {
        full_access(draft);
    }
    let old = draft.unseal_words();
    let keys = flash::keys(draft.random);
    let (start, end) = draft.random.pick(&[(0, 8), (0, 4), (4, 8), (0, 2), (2, 4)]);
    draft.write(0x3E, &[KEY_CLASS, 0]);
    draft.write(0x40 + start as u8, &keys[start..end]);
    let sum = checksum(&draft.gauge.record.window);
    draft.write(0x60, &[sum]);
    if draft.random.chance(70) {
        draft.word(0x0020);
    }
    if draft.random.chance(50) {
        draft.words(&old);
        status(draft);
    }
    let new =
        if draft.mode() == Mode::Sealed { draft.unseal_words() } else { draft.full_access_words() };
    draft.words(&new);
    status(draft);
}

/// The block of the keys, or the one behind it, changed in chosen places and committed; sometimes
/// once more with the keys as they are stored.
fn key_block(draft: &mut Draft) {
    if draft.mode() == Mode::FullAccess && draft.random.chance(60) {
        draft.word(0x0020);
    }
    draft.open_with_control(0);
    if draft.random.chance(25) {
        full_access(draft);
    }
    let block = draft.random.pick(&[0, 0, 1]);
    draft.write(0x3E, &[KEY_CLASS, block]);
    let mut window = draft.gauge.record.window;
    let places = key_block_places(draft);
    for &place in &places {
        window[place] ^= 1 << draft.random.below(8);
    }
    let sum = draft.any_checksum(&window);
    if draft.random.chance(50) {
        draft.write(0x40, &[&window[..], &[sum]].concat());
    } else {
        for place in places {
            draft.write(0x40 + place as u8, &[window[place]]);
        }
        draft.write(0x60, &[sum]);
    }
    if draft.random.chance(40) {
        let stored = draft.key_bytes();
        draft.write(0x40, &stored);
        commit(draft);
    }
}

/// Places in a window: of the keys, behind them, in both or in none.
fn key_block_places(draft: &mut Draft) -> Vec<usize> {
    let keys = 0..KEYS_LENGTH;
    let one = draft.random.below(KEYS_LENGTH);
    let behind = draft.random.between(KEYS_LENGTH, KEY_CLASS_MIN_LENGTH - 1);
    match draft.random.below(9) {
        0 => Vec::new(),
        1 => vec![one],
        2 => vec![keys.start],
        3 => vec![keys.end - 1],
        4 => vec![keys.end],
        5 => keys.collect(),
        6 => vec![behind],
        7 => vec![one, behind],
        _ => (one..=behind).collect(),
    }
}

// The supply

/// Any number of two bytes, mostly one at an end of a range or beside it.
pub fn set_supply(draft: &mut Draft) {
    let any = draft.random.number() as u16;
    let ends = [0, 2_699, 2_700, 2_701, 3_600, 4_499, 4_500, 4_501, 0xFFFF];
    let end = draft.random.pick(&ends);
    // 2,700 with its bytes exchanged is far above the range
    let millivolts = draft.random.pick(&[end, end, end, any, any % 4_501, 4_500, 0x8C0A]);
    draft.supply(millivolts);
}

/// Under 2,700.
pub fn low_supply(draft: &mut Draft) {
    let any = draft.random.below(2_700) as u16;
    let millivolts = draft.random.pick(&[0, 2_450, 2_699, 2_699, any]);
    draft.supply(millivolts);
}

/// A block that can be edited, loaded as the mode lets it, with a commit that would store it.
fn commit_on_supply(draft: &mut Draft) {
    load_editable(draft);
    if draft.random.chance(70) {
        edit(draft);
    }
    let millivolts = draft.random.pick(&[0, 2_699, 2_700, 2_700, 4_500]);
    draft.supply(millivolts);
    draft.write(0x60, &[checksum(&draft.gauge.record.window)]);
    if draft.random.chance(50) {
        // window and loading stay, so that it can be tried again
        set_supply(draft);
        draft.write(0x60, &[checksum(&draft.gauge.record.window)]);
    }
}

fn load_editable(draft: &mut Draft) {
    if draft.gauge.record.general_access() {
        return load(draft);
    }
    let block = draft.random.pick(&[2, 3]);
    draft.write(0x3F, &[block]);
}

/// What is refused for another reason, on a low supply: two of them, sometimes with a supply that
/// is none before.
fn refused_on_low_supply(draft: &mut Draft) {
    low_supply(draft);
    if draft.random.chance(20) {
        let above = draft.random.pick(&[4_501, 0xFFFF]);
        draft.supply(above);
    }
    for _ in 0..2 {
        let next = draft.random.pick(&[
            span_end as Move,
            other_register,
            sealed_register,
            unknown_class,
            unknown_block,
            none_loaded,
            block_a,
            wrong_checksum,
            invalid_control,
            changed_key,
        ]);
        next(draft);
    }
    if draft.random.chance(40) {
        set_supply(draft);
    }
}

fn sealed_register(draft: &mut Draft) {
    if draft.mode() != Mode::Sealed {
        draft.word(0x0020);
    }
    let register = draft.random.pick(&[0x3E, 0x61]);
    draft.write(register, &[0]);
}

/// A commit with another key, unsealed.
fn changed_key(draft: &mut Draft) {
    if draft.mode() == Mode::FullAccess {
        draft.word(0x0020);
    }
    draft.open_with_control(0);
    draft.write(0x3E, &[KEY_CLASS, 0]);
    let place = draft.random.below(KEYS_LENGTH);
    let other = draft.gauge.record.window[place] ^ (1 << draft.random.below(8));
    draft.write(0x40 + place as u8, &[other]);
    draft.write(0x60, &[checksum(&draft.gauge.record.window)]);
}

fn unknown_class(draft: &mut Draft) {
    draft.open_with_control(0);
    let classes = &draft.gauge.layout.classes;
    let unknown = (0..=0xFF).find(|id| classes.iter().all(|class| class.id != *id));
    draft.write(0x3E, &[unknown.expect("32 classes at most"), 0]);
}

fn unknown_block(draft: &mut Draft) {
    draft.write(0x3F, &[0xFF]);
}

fn invalid_control(draft: &mut Draft) {
    draft.open_with_control(2);
}

fn none_loaded(draft: &mut Draft) {
    if draft.mode() == Mode::Sealed {
        draft.word(0x0020);
    } else {
        set_class(draft);
    }
    draft.write(0x60, &[0xFF]);
}

/// Block A of a sealed gauge.
fn block_a(draft: &mut Draft) {
    if draft.mode() != Mode::Sealed {
        draft.word(0x0020);
    }
    draft.write(0x3F, &[1]);
    draft.write(0x60, &[checksum(&draft.gauge.record.window)]);
}

fn wrong_checksum(draft: &mut Draft) {
    load_editable(draft);
    let wrong = checksum(&draft.gauge.record.window) ^ (1 << draft.random.below(8));
    draft.write(0x60, &[wrong]);
}

/// A low supply before 0x0020 or 0x0041, and a commit after it.
fn low_supply_restarted(draft: &mut Draft) {
    if draft.random.chance(50) {
        draft.open_with_control(0);
    }
    low_supply(draft);
    let word = draft.random.pick(&[0x0020, 0x0041]);
    draft.word(word);
    if draft.random.chance(40) {
        draft.open_with_control(0);
    }
    load_editable(draft);
    change_loaded(draft);
    draft.write(0x60, &[checksum(&draft.gauge.record.window)]);
}

/// The word that waits goes on waiting.
fn supply_between_key_words(draft: &mut Draft) {
    let ([a, b], _) = wanted_and_other(draft);
    draft.word(a);
    set_supply(draft);
    draft.word(b);
    status(draft);
}

// Registers, spans, counts

/// Everything that block transfer shows, or everything there is.
pub fn look(draft: &mut Draft) {
    if draft.random.chance(70) {
        draft.read(0x3E, 0x61 - 0x3E + 1);
    } else {
        draft.read(0x00, 128);
    }
}

/// A write of random bytes in so many cases of a hundred, else a read.
fn write_or_read(draft: &mut Draft, register: u8, count: usize, percent: usize) {
    if draft.random.chance(percent) {
        let bytes = draft.random.bytes(count);
        draft.write(register, &bytes);
    } else {
        draft.read(register, count as u8);
    }
}

/// Registers 0x02 to 0x3D and 0x62 to 0x7F, which take no writes and read 0.
fn other_register(draft: &mut Draft) {
    let (low, high) = (draft.random.between(0x02, 0x3D), draft.random.between(0x62, 0x7F));
    let register = draft.random.pick(&[low, high, 0x02, 0x3D, 0x62, 0x7F]) as u8;
    let count = draft.random.pick(&[1, 1, 2, 3]);
    write_or_read(draft, register, count, 60);
}

/// Registers 0x80 to 0xFF: no span fits.
fn high_register(draft: &mut Draft) {
    let any = draft.random.byte() | 0x80;
    let register = draft.random.pick(&[any, 0x80, 0xFF, 0xFE]);
    let count = draft.random.pick(&[0, 1, 2, 127, 128, 255]);
    write_or_read(draft, register, count, 50);
}

/// Register and count together 127, 128 or 129.
fn span_end(draft: &mut Draft) {
    let any = draft.random.below(128);
    let register = draft.random.pick(&[0x00, 0x01, 0x3E, 0x3F, 0x40, 0x5F, 0x60, 0x61, 0x7E, any]);
    let count = draft.random.pick(&[127, 128, 129]) - register.min(127);
    write_or_read(draft, register as u8, count, 60);
}

fn write_nothing(draft: &mut Draft) {
    let any = draft.random.byte();
    let register = draft.random.pick(&[0x00, 0x01, 0x3E, 0x40, 0x60, 0x61, 0x7F, 0x80, 0xFF, any]);
    draft.write(register, &[]);
}

/// Writes that fill the registers, or are too long for them.
fn big_write(draft: &mut Draft) {
    let any = draft.random.byte();
    let register = draft.random.pick(&[0x00, 0x00, 0x01, 0x3E, 0x40, 0x60, 0x7F, 0x80, 0xFF, any]);
    let count = draft.random.pick(&[127, 128, 129, 254, 255]);
    let bytes = draft.random.bytes(count);
    draft.write(register, &bytes);
}

fn read_count(draft: &mut Draft) {
    let any = draft.random.byte();
    let register = draft.random.pick(&[0x00, 0x00, 0x01, 0x3E, 0x40, 0x60, 0x61, 0x7F, any]);
    let count = draft.random.pick(&[0, 1, 127, 128, 129, 255]);
    draft.read(register, count);
}

/// A read of any span, mostly one that fits.
fn read_anywhere(draft: &mut Draft) {
    let register = draft.random.below(128);
    let count = draft.random.between(1, 128 - register);
    let longer = draft.random.byte();
    let count = if draft.random.chance(90) { count as u8 } else { longer };
    draft.read(register as u8, count);
}

/// A frame made of random bytes.
fn noise(draft: &mut Draft) {
    let register = draft.random.byte() & 0x7F;
    let count = draft.random.below(12);
    let bytes = draft.random.bytes(count);
    draft.write(register, &bytes);
}
