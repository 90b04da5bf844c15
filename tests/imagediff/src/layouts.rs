//! Layouts that differ in one thing, over the same bytes as far as they go.

use generator::flash::{self, Class, Flash};
use generator::random::Random;
use model::layout::{self, Layout};

/// Identifier and length of each class.
type Classes = Vec<(u8, usize)>;
pub type Alter = fn(&mut Random, &mut Classes);

/// A valid flash, and one with a layout altered like this, in any order.
pub fn pair(random: &mut Random, alter: Alter) -> (Flash, Flash) {
    let (first, second) = altered(random, alter);
    if random.chance(50) {
        (first, second)
    } else {
        (second, first)
    }
}

/// Tries until the altered layout is another one, and valid.
fn altered(random: &mut Random, alter: Alter) -> (Flash, Flash) {
    loop {
        let flash = flash::any(random);
        let classes = classes(&flash);
        let mut others = classes.clone();
        alter(random, &mut others);
        if others != classes && is_valid(&others) {
            let other = with_bytes_of(random, &flash, &others);
            return (flash, other);
        }
    }
}

fn classes(flash: &Flash) -> Classes {
    flash.classes.iter().map(|class| (class.id, class.bytes.len())).collect()
}

fn is_valid(classes: &Classes) -> bool {
    let class = |&(id, length): &(u8, usize)| layout::Class { id, length };
    Layout { classes: classes.iter().map(class).collect() }.is_valid()
}

/// The image of a flash cut into other classes, with more bytes where it is too short.
fn with_bytes_of(random: &mut Random, flash: &Flash, classes: &Classes) -> Flash {
    let mut image = flash.classes.iter().flat_map(|class| class.bytes.iter().copied());
    let mut next = || image.next().unwrap_or_else(|| random.byte());
    let mut cut = |length: usize| (0..length).map(|_| next()).collect();
    Flash {
        classes: classes.iter().map(|&(id, length)| Class { id, bytes: cut(length) }).collect(),
    }
}

/// Any class, the first and the last one more often.
fn any_place(random: &mut Random, classes: &Classes) -> usize {
    let any = random.below(classes.len());
    random.pick(&[0, classes.len() - 1, any, any])
}

pub fn identifier(random: &mut Random, classes: &mut Classes) {
    let place = any_place(random, classes);
    let (id, any) = (classes[place].0, random.byte());
    classes[place].0 = random.pick(&[id.wrapping_add(1), id.wrapping_sub(1), id ^ 0x80, any]);
}

pub fn one_length(random: &mut Random, classes: &mut Classes) {
    let place = any_place(random, classes);
    let (length, any) = (classes[place].1, random.between(1, layout::MAX_CLASS_LENGTH));
    classes[place].1 = random.pick(&[length + 1, length - 1, length + 256, any]);
}

/// The end between two neighbours shifted: as many bytes together.
pub fn lengths_shifted(random: &mut Random, classes: &mut Classes) {
    let place = random.below(classes.len() - 1);
    let (first, second) = (classes[place].1, classes[place + 1].1);
    let any = random.between(1, first + second - 1);
    classes[place].1 = random.pick(&[first - 1, first + 1, any]);
    classes[place + 1].1 = first + second - classes[place].1;
}

/// The lengths of two classes exchanged: the same lengths, and as many bytes together.
pub fn lengths_exchanged(random: &mut Random, classes: &mut Classes) {
    let (a, b) = (any_place(random, classes), any_place(random, classes));
    (classes[a].1, classes[b].1) = (classes[b].1, classes[a].1);
}

/// One class cut into two: a class more, and as many bytes together.
pub fn class_split(random: &mut Random, classes: &mut Classes) {
    let place = any_place(random, classes);
    let (id, length) = classes[place];
    let first = random.between(1, length);
    classes[place].1 = first;
    classes.insert(place + 1, (random.pick(&[id.wrapping_add(1), 0xFF]), length - first));
}

/// A class more, as the last one or anywhere.
pub fn class_added(random: &mut Random, classes: &mut Classes) {
    let last = classes[classes.len() - 1].0;
    let any = random.byte();
    classes.push((random.pick(&[last.wrapping_add(1), 0xFF, any]), random.between(1, 40)));
    classes.sort();
}

/// Another layout altogether.
pub fn unrelated(random: &mut Random, others: &mut Classes) {
    *others = classes(&flash::any(random));
}
