//! The scheduler of four levels, over the library's C functions. The layouts are those of tiny_tera.h.

/// What one input posts in a slot: for each level the outputs that it asks, as bits.
#[repr(C)]
#[derive(Clone, Copy, Debug, Default)]
pub struct Row {
    pub uni: [u64; 4],
    pub multi: [u64; 4],
}

/// Where the rotating pointers are, from slot to slot.
#[repr(C)]
#[derive(Clone, Copy, Debug)]
pub struct Pointers {
    pub grant: [[u32; 64]; 4],
    pub accept: [[u32; 64]; 4],
    pub shared: [u32; 4],
}

/// What feeds one output, all of it [`NONE`] where the output is free.
#[repr(C)]
#[derive(Clone, Copy, Debug, Default, PartialEq, Eq)]
pub struct Feed {
    pub input: u32,
    pub level: u32,
    pub kind: u32,
}

/// How the rounds of a slot were used.
#[repr(C)]
#[derive(Clone, Copy, Debug, Default)]
pub struct Rounds {
    pub used: u32,
    pub first: u32,
    pub last_added: u32,
}

/// The word of no port.
pub const NONE: u32 = 0xffff_ffff;

extern "C" {
    fn tiny_tera_decide(
        n: u32,
        rounds: u32,
        slot: u32,
        rows: *const Row,
        rows_len: usize,
        pointers: *mut Pointers,
        feeds: *mut Feed,
        feeds_len: usize,
        used: *mut Rounds,
    ) -> u32;

    fn tiny_tera_decide_many(
        n: u32,
        rounds: u32,
        slot: u32,
        rows: *const Row,
        rows_len: usize,
        pointers: *mut Pointers,
        feeds: *mut Feed,
        feeds_len: usize,
        used: *mut Rounds,
        used_len: usize,
    ) -> u32;
}

/// A switch whose slots are decided one after the other.
pub struct Switch {
    rounds: u32,
    slot: u32,
    pointers: Pointers,
    feeds: Vec<Feed>,
}

impl Switch {
    /// A switch of `ports` ports and `rounds` rounds a slot, each from 1 to 64, before its first slot.
    pub fn new(ports: usize, rounds: u32) -> Switch {
        let pointers = Pointers {
            grant: [[0; 64]; 4],
            accept: [[0; 64]; 4],
            shared: [0; 4],
        };
        Switch {
            rounds,
            slot: 0,
            pointers,
            feeds: vec![Feed::default(); ports],
        }
    }

    /// Decides the next slot, and answers what feeds each output. None where a row names no output of the switch, or
    /// there is not one row for each input.
    pub fn decide(&mut self, rows: &[Row]) -> Option<&[Feed]> {
        let mut used = Rounds::default();
        // Slices are as long as they say, and `&mut` overlaps nothing.
        let status = unsafe {
            tiny_tera_decide(
                self.feeds.len() as u32,
                self.rounds,
                self.slot,
                rows.as_ptr(),
                rows.len(),
                &mut self.pointers,
                self.feeds.as_mut_ptr(),
                self.feeds.len(),
                &mut used,
            )
        };
        if status != 0 {
            return None;
        }
        self.slot = self.slot.wrapping_add(1);
        Some(&self.feeds)
    }

    /// Decides the next slots in one call, as many as there are rows for: those of the first slot, then those of the
    /// second, and so on. Answers what feeds each output, in the same order. None as of `decide`, of any of the slots;
    /// then none is decided.
    pub fn decide_many(&mut self, rows: &[Row]) -> Option<Vec<Feed>> {
        let ports = self.feeds.len();
        let mut feeds = vec![Feed::default(); rows.len()];
        let mut used = vec![Rounds::default(); rows.len() / ports];
        // As above.
        let status = unsafe {
            tiny_tera_decide_many(
                ports as u32,
                self.rounds,
                self.slot,
                rows.as_ptr(),
                rows.len(),
                &mut self.pointers,
                feeds.as_mut_ptr(),
                feeds.len(),
                used.as_mut_ptr(),
                used.len(),
            )
        };
        if status != 0 {
            return None;
        }
        self.slot = self.slot.wrapping_add(used.len() as u32);
        Some(feeds)
    }
}
