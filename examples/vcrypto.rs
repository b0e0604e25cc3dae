//! The ten calls of libvcrypto for Rust: the constants and declarations of include/vcrypto.h, whose names lose their prefix, and safe calls, which ask for
//! whole slices that do not overlap, as Rust's own do. 3DES_CBC is TDES_CBC here. What each call answers and writes stands in the header.
#![allow(dead_code)]

// Answers.
pub const OK: u8 = 0;
pub const ERR: u8 = 1;
pub const BADMSG: u8 = 2;
pub const NOTSUPP: u8 = 3;
pub const INVSESS: u8 = 4;
pub const NOSPC: u8 = 5;
pub const BAD_GUEST: u8 = 16;
pub const NO_OUTCOME: u8 = 17;
pub const BAD_STORE: u8 = 18;
pub const BAD_FEATURE: u8 = 19;
pub const BAD_SHARES: u8 = 20;
pub const BAD_CONFIG: u8 = 21;

// Services.
pub const CIPHER: u8 = 0;
pub const HASH: u8 = 1;
pub const MAC: u8 = 2;
pub const AEAD: u8 = 3;

// Opcodes of control requests.
pub const CIPHER_CREATE: u32 = 0x0002;
pub const CIPHER_DESTROY: u32 = 0x0003;
pub const HASH_CREATE: u32 = 0x0102;
pub const HASH_DESTROY: u32 = 0x0103;
pub const MAC_CREATE: u32 = 0x0202;
pub const MAC_DESTROY: u32 = 0x0203;
pub const AEAD_CREATE: u32 = 0x0302;
pub const AEAD_DESTROY: u32 = 0x0303;

// Opcodes of data requests.
pub const CIPHER_ENCRYPT: u32 = 0x0000;
pub const CIPHER_DECRYPT: u32 = 0x0001;
pub const HASH_DATA: u32 = 0x0100;
pub const MAC_DATA: u32 = 0x0200;
pub const AEAD_ENCRYPT: u32 = 0x0300;
pub const AEAD_DECRYPT: u32 = 0x0301;

// Directions.
pub const DIR_ENCRYPT: u32 = 1;
pub const DIR_DECRYPT: u32 = 2;

// Ciphers.
pub const AES_ECB: u32 = 2;
pub const AES_CBC: u32 = 3;
pub const AES_CTR: u32 = 4;
pub const TDES_CBC: u32 = 8;
pub const AES_XTS: u32 = 13;

// Hashes.
pub const MD5: u32 = 1;
pub const SHA1: u32 = 2;
pub const SHA_224: u32 = 3;
pub const SHA_256: u32 = 4;
pub const SHA_384: u32 = 5;
pub const SHA_512: u32 = 6;

// MACs.
pub const HMAC_MD5: u32 = 1;
pub const HMAC_SHA1: u32 = 2;
pub const HMAC_SHA_224: u32 = 3;
pub const HMAC_SHA_256: u32 = 4;
pub const HMAC_SHA_384: u32 = 5;
pub const HMAC_SHA_512: u32 = 6;
pub const CMAC_AES: u32 = 26;

// AEADs.
pub const GCM: u32 = 1;
pub const CCM: u32 = 2;
pub const CHACHA20_POLY1305: u32 = 3;

// All bits of the services and of each mask.
pub const ALL_SERVICES: u32 = 0x0f;
pub const ALL_CIPHERS: u32 = 0x211c;
pub const ALL_HASHES: u32 = 0x7e;
pub const ALL_MACS: u32 = 0x0400007e;
pub const ALL_AEADS: u32 = 0x0e;

// Values that a request or a configuration must have.
pub const READY: u32 = 1;
pub const REVISION_1: u32 = 1;
pub const SESSION_MODE: u32 = 1;
pub const OP_CIPHER: u32 = 1;

// Sizes of what a request is made of.
pub const CONTROL_HEADER: usize = 16;
pub const CIPHER_CREATE_PART: usize = 56;
pub const HASH_CREATE_PART: usize = 8;
pub const MAC_CREATE_PART: usize = 16;
pub const AEAD_CREATE_PART: usize = 24;
pub const DESTROY_PART: usize = 8;
pub const CREATE_OUTCOME: usize = 16;
pub const DESTROY_OUTCOME: usize = 1;
pub const DATA_HEADER: usize = 24;
pub const CIPHER_DATA_PART: usize = 48;
pub const HASH_DATA_PART: usize = 8;
pub const MAC_DATA_PART: usize = 8;
pub const AEAD_DATA_PART: usize = 24;
pub const DATA_OUTCOME: usize = 1;

// Sizes and limits.
pub const GUESTS: usize = 8;
pub const SLOTS: usize = 128;
pub const KEY_AREA: usize = 128;
pub const STORE_SIZE: usize = 16384;
pub const CONFIG_SIZE: usize = 56;
pub const TABLE_SIZE: usize = 3272;
pub const KEY_LIMIT: usize = 64;
pub const SIZE_LIMIT: usize = 1048576;
pub const QUEUE_LIMIT: usize = 8;

#[derive(Clone, Copy)]
#[repr(C)]
pub struct Config {
    pub status: u32,
    pub queues: u32,
    pub services: u32,
    pub ciphers: u32,
    pub ciphers2: u32,
    pub hashes: u32,
    pub macs: u32,
    pub macs2: u32,
    pub aeads: u32,
    pub cipherkey: u32,
    pub authkey: u32,
    pub reserved: u32,
    pub size: u64,
}

#[derive(Clone, Copy)]
#[repr(C)]
pub struct Occupied {
    pub low: u64,
    pub high: u64,
}

#[derive(Clone, Copy)]
#[repr(C)]
pub struct Slot {
    pub number: u64,
    pub aad: u32,
    pub owner: u8,
    pub service: u8,
    pub algo: u8,
    pub direction: u8,
    pub keylen: u8,
    pub result: u8,
}

#[derive(Clone, Copy)]
#[repr(C)]
pub struct Guest {
    pub attached: bool,
    pub reserve: u8,
    pub cap: u8,
    pub last: u64,
}

#[derive(Clone, Copy)]
#[repr(C)]
pub struct Table {
    pub config: Config,
    pub occupied: Occupied,
    pub slots: [Slot; 128],
    pub guests: [Guest; 8],
}

#[repr(C)]
pub struct Reply {
    pub answer: u8,
    pub table: Table,
}

#[repr(C)]
pub struct Admission {
    pub answer: u8,
    pub guest: u8,
    pub number: u64,
    pub opcode: u32,
}

#[repr(C)]
struct Span {
    start: usize,
    size: usize,
}

type Part = unsafe extern "C" fn(Table, u8, *const u8, usize, *const u8, usize) -> Span;

#[link(name = "vcrypto", kind = "static")]
extern "C" {
    fn vcrypto_set_up(config: *const u8, config_len: usize, reserves: *const [u8; 8], caps: *const [u8; 8], store: *mut u8, store_len: usize) -> Reply;
    fn vcrypto_attach(t: Table, guest: u8, word: u32, store: *mut u8, store_len: usize) -> Reply;
    fn vcrypto_control(
        t: Table,
        guest: u8,
        readable: *const u8,
        readable_len: usize,
        writable: *mut u8,
        writable_len: usize,
        store: *mut u8,
        store_len: usize,
    ) -> Reply;
    fn vcrypto_admit(t: Table, guest: u8, readable: *const u8, readable_len: usize, writable: *mut u8, writable_len: usize) -> Admission;
    fn vcrypto_iv(t: Table, guest: u8, readable: *const u8, readable_len: usize, writable: *const u8, writable_len: usize) -> Span;
    fn vcrypto_source(t: Table, guest: u8, readable: *const u8, readable_len: usize, writable: *const u8, writable_len: usize) -> Span;
    fn vcrypto_aad(t: Table, guest: u8, readable: *const u8, readable_len: usize, writable: *const u8, writable_len: usize) -> Span;
    fn vcrypto_key_answer(t: Table, guest: u8, number: u64, store: *const u8, store_len: usize) -> u8;
    fn vcrypto_key(t: Table, guest: u8, number: u64, store: *const u8, store_len: usize) -> Span;
    fn vcrypto_finish(t: Table, guest: u8, opcode: u32, verdict: u8, writable: *mut u8, writable_len: usize) -> u8;
}

pub fn set_up(config: &[u8], reserves: &[u8; 8], caps: &[u8; 8], store: &mut [u8]) -> Reply {
    unsafe { vcrypto_set_up(config.as_ptr(), config.len(), reserves, caps, store.as_mut_ptr(), store.len()) }
}

pub fn attach(t: &Table, guest: u8, word: u32, store: &mut [u8]) -> Reply {
    unsafe { vcrypto_attach(*t, guest, word, store.as_mut_ptr(), store.len()) }
}

pub fn control(t: &Table, guest: u8, readable: &[u8], writable: &mut [u8], store: &mut [u8]) -> Reply {
    let (r, w, s) = (readable.as_ptr(), writable.as_mut_ptr(), store.as_mut_ptr());
    unsafe { vcrypto_control(*t, guest, r, readable.len(), w, writable.len(), s, store.len()) }
}

pub fn admit(t: &Table, guest: u8, readable: &[u8], writable: &mut [u8]) -> Admission {
    unsafe { vcrypto_admit(*t, guest, readable.as_ptr(), readable.len(), writable.as_mut_ptr(), writable.len()) }
}

fn part<'a>(call: Part, t: &Table, guest: u8, readable: &'a [u8], writable: &[u8]) -> &'a [u8] {
    let span = unsafe { call(*t, guest, readable.as_ptr(), readable.len(), writable.as_ptr(), writable.len()) };
    &readable[span.start..span.start + span.size]
}

pub fn iv<'a>(t: &Table, guest: u8, readable: &'a [u8], writable: &[u8]) -> &'a [u8] {
    part(vcrypto_iv, t, guest, readable, writable)
}

pub fn source<'a>(t: &Table, guest: u8, readable: &'a [u8], writable: &[u8]) -> &'a [u8] {
    part(vcrypto_source, t, guest, readable, writable)
}

pub fn aad<'a>(t: &Table, guest: u8, readable: &'a [u8], writable: &[u8]) -> &'a [u8] {
    part(vcrypto_aad, t, guest, readable, writable)
}

pub fn key_answer(t: &Table, guest: u8, number: u64, store: &[u8]) -> u8 {
    unsafe { vcrypto_key_answer(*t, guest, number, store.as_ptr(), store.len()) }
}

pub fn key<'a>(t: &Table, guest: u8, number: u64, store: &'a [u8]) -> &'a [u8] {
    let span = unsafe { vcrypto_key(*t, guest, number, store.as_ptr(), store.len()) };
    &store[span.start..span.start + span.size]
}

pub fn finish(t: &Table, guest: u8, opcode: u32, verdict: u8, writable: &mut [u8]) -> u8 {
    unsafe { vcrypto_finish(*t, guest, opcode, verdict, writable.as_mut_ptr(), writable.len()) }
}
