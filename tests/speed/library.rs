// The library, as include/vcrypto.h declares it.
use yardstick as yard;

#[derive(Clone, Copy)]
#[repr(C)]
pub struct Config {
    pub status: u32,
    pub queues: u32,
    pub services: u32,
    pub ciphers: u32,
    pub ciphers2: u32,
    pub hashes: u32,
    pub macs: u32,
    pub macs2: u32,
    pub aeads: u32,
    pub cipherkey: u32,
    pub authkey: u32,
    pub reserved: u32,
    pub size: u64,
}

#[derive(Clone, Copy)]
#[repr(C)]
pub struct Guest {
    pub attached: bool,
    pub reserve: u8,
    pub cap: u8,
    pub last: u64,
}

#[derive(Clone, Copy)]
#[repr(C)]
pub struct Table {
    pub config: Config,
    pub occupied: [u64; 2],
    pub slots: [yard::Slot; 128], // the same eight fields in the same order
    pub guests: [Guest; 8],
}

impl Table {
    pub fn held(&self, slot: usize) -> bool {
        self.occupied[slot / 64] >> (slot % 64) & 1 == 1
    }

    // The places of the held slots.
    pub fn live(&self) -> Vec<usize> {
        (0..128).filter(|&slot| self.held(slot)).collect()
    }

    // The slot of a guest's session number, if one is held.
    pub fn slot_of(&self, guest: u8, number: u64) -> Option<usize> {
        self.live().into_iter().find(|&slot| self.slots[slot].owner == guest && self.slots[slot].number == number)
    }
}

#[repr(C)]
pub struct Reply {
    pub answer: u8,
    pub table: Table,
}

#[repr(C)]
pub struct Span {
    pub start: usize,
    pub size: usize,
}

#[link(name = "vcrypto", kind = "static")]
extern "C" {
    pub fn vcrypto_set_up(
        config: *const u8,
        config_len: usize,
        reserves: *const [u8; 8],
        caps: *const [u8; 8],
        store: *mut u8,
        store_len: usize,
    ) -> Reply;
    pub fn vcrypto_attach(table: Table, guest: u8, word: u32, store: *mut u8, store_len: usize) -> Reply;
    pub fn vcrypto_control(
        table: Table,
        guest: u8,
        readable: *const u8,
        readable_len: usize,
        writable: *mut u8,
        writable_len: usize,
        store: *mut u8,
        store_len: usize,
    ) -> Reply;
    pub fn vcrypto_admit(table: Table, guest: u8, readable: *const u8, readable_len: usize, writable: *mut u8, writable_len: usize) -> yard::Admission;
    pub fn vcrypto_key(table: Table, guest: u8, number: u64, store: *const u8, store_len: usize) -> Span;
    pub fn vcrypto_finish(table: Table, guest: u8, opcode: u32, verdict: u8, writable: *mut u8, writable_len: usize) -> u8;
}

// The same table as the yardstick keeps it.
pub fn yard_table(t: &Table) -> yard::Table {
    let k = t.config;
    yard::Table {
        config: yard::Config {
            services: k.services,
            ciphers: k.ciphers,
            hashes: k.hashes,
            macs: k.macs,
            aeads: k.aeads,
            cipher_key_limit: k.cipherkey,
            auth_key_limit: k.authkey,
            unused: [k.status, k.queues, k.ciphers2, k.macs2, k.reserved],
            max_size: k.size,
        },
        occupied: t.occupied,
        slots: t.slots,
        guests: t.guests.map(|g| yard::Guest { last: g.last, attached: g.attached, reserve: g.reserve, cap: g.cap }),
    }
}

