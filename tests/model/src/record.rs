//! 01, "The gauge record": its members, power-on, and which records are valid.

use crate::layout::{Layout, BLOCK_LENGTH, INFO_CLASS};
use crate::supply::{MAX_SUPPLY, POWER_ON_SUPPLY};

#[derive(Clone, Copy, Debug, PartialEq, Eq)]
pub enum Mode {
    Sealed,
    Unsealed,
    FullAccess,
}

/// What power-on and reset return to: "home (sealed or open)".
#[derive(Clone, Copy, Debug, PartialEq, Eq)]
pub enum Boot {
    Sealed,
    Open,
}

#[derive(Clone, Copy, Debug, PartialEq, Eq)]
pub struct Loaded {
    pub class: u8,
    pub block: u8,
}

/// "Manufacturer blocks A, B, C are blocks 0, 1, 2 of class 58."
pub const BLOCK_A: Loaded = Loaded { class: INFO_CLASS, block: 0 };

#[derive(Clone, Debug, PartialEq, Eq)]
pub struct Record {
    pub mode: Mode,
    pub boot: Boot,
    /// The low control byte.
    pub low: u8,
    /// The waiting key word.
    pub pending: Option<u16>,
    /// The control result.
    pub result: u16,
    /// BlockDataControl.
    pub control: u8,
    /// The class register.
    pub class: u8,
    /// The block register.
    pub block: u8,
    pub loaded: Option<Loaded>,
    pub window: [u8; BLOCK_LENGTH],
    /// C-16: "its supply in millivolts".
    pub supply: u16,
}

impl Record {
    /// "Home sealed starts sealed, home open starts in full access. All else is 0, none loaded,
    /// none waiting, BlockDataControl 1."
    pub fn power_on(boot: Boot) -> Record {
        Record {
            mode: if boot == Boot::Sealed { Mode::Sealed } else { Mode::FullAccess },
            boot,
            low: 0,
            pending: None,
            result: 0,
            control: 1,
            class: 0,
            block: 0,
            loaded: None,
            window: [0; BLOCK_LENGTH],
            supply: POWER_ON_SUPPLY,
        }
    }

    /// What 0x0020 and 0x0041 make of it: "record becomes that of power-on"; C-16: the supply is
    /// "kept through sealing and reset".
    pub fn restart(&mut self, boot: Boot) {
        *self = Record { supply: self.supply, ..Record::power_on(boot) };
    }

    /// "A record is sound for a layout when its numbers are in range, a loaded block exists, with
    /// none loaded the window is zero, in full access no word waits, and a sealed record has
    /// BlockDataControl 1 and nothing but a manufacturer block loaded." C-16: "Soundness gains the
    /// range". The types keep the other numbers in range.
    pub fn is_valid(&self, layout: &Layout) -> bool {
        let loaded_right = match self.loaded {
            None => self.window == [0; BLOCK_LENGTH],
            Some(loaded) => {
                layout.block(layout.length(), loaded.class, loaded.block).is_ok()
                    && (self.mode != Mode::Sealed || loaded.class == INFO_CLASS)
            }
        };
        self.control <= 1
            && self.supply <= MAX_SUPPLY
            && loaded_right
            && (self.mode != Mode::FullAccess || self.pending.is_none())
            && (self.mode != Mode::Sealed || self.control == 1)
    }

    /// 'General access' "means not sealed and BlockDataControl 0."
    pub fn general_access(&self) -> bool {
        self.mode != Mode::Sealed && self.control == 0
    }

    /// "Unload: none loaded, window zero, block 0."
    pub fn unload(&mut self) {
        self.loaded = None;
        self.window = [0; BLOCK_LENGTH];
        self.block = 0;
    }
}

#[cfg(test)]
mod tests {
    use super::*;
    use crate::layout::Class;

    fn layout() -> Layout {
        let classes = [(48, 33), (58, 96), (112, 28)];
        Layout { classes: classes.map(|(id, length)| Class { id, length }).to_vec() }
    }

    #[test]
    fn power_on_is_valid() {
        assert!(Record::power_on(Boot::Sealed).is_valid(&layout()));
        assert!(Record::power_on(Boot::Open).is_valid(&layout()));
    }

    #[test]
    fn validity() {
        let unsealed = Record { mode: Mode::Unsealed, ..Record::power_on(Boot::Sealed) };
        let sealed = Record::power_on(Boot::Sealed);
        let full = Record::power_on(Boot::Open);
        let class_48 = Some(Loaded { class: 48, block: 1 });
        let good = [
            Record { loaded: class_48, ..unsealed.clone() },
            Record { loaded: Some(BLOCK_A), window: [7; 32], ..sealed.clone() },
            Record { pending: Some(0x0020), class: 9, block: 200, ..sealed.clone() },
            Record { boot: Boot::Open, ..sealed.clone() },
            Record { supply: 0, ..sealed.clone() },
            Record { supply: 4_500, ..full.clone() },
        ];
        for record in good {
            assert!(record.is_valid(&layout()), "{record:?}");
        }
        let bad = [
            Record { control: 2, ..unsealed.clone() },
            Record { supply: 4_501, ..unsealed.clone() },
            Record { supply: 0xFFFF, ..full.clone() },
            Record { window: [1; 32], ..unsealed.clone() },
            Record { loaded: Some(Loaded { class: 48, block: 2 }), ..unsealed.clone() },
            Record { loaded: Some(Loaded { class: 49, block: 0 }), ..unsealed },
            Record { loaded: Some(Loaded { class: 58, block: 3 }), ..sealed.clone() },
            Record { loaded: class_48, ..sealed.clone() },
            Record { control: 0, ..sealed },
            Record { pending: Some(1), ..full },
        ];
        for record in bad {
            assert!(!record.is_valid(&layout()), "{record:?}");
        }
    }
}
