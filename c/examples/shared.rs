//! Two clients and one file, by the table of the locks: who may hold what while one writes, where the lock is to go when another
//! wants to read, and what either may hold on the way. Plain rustc; tools/dev c-library builds it.

use std::ffi::{c_char, CStr};
use std::ptr;

const CAP_FS: u32 = 256;
const CAP_FR: u32 = 2048;
const CAP_FW: u32 = 4096;
const PART_F: u32 = 3;
const SYNC: u32 = 0;
const MIX: u32 = 2;
const EXCL: u32 = 3;

#[repr(C)]
#[derive(Clone, Copy, Debug, Default, PartialEq, Eq)]
struct StableState {
    kind: u32,
    holder: u32,
}

#[repr(C)]
#[derive(Default)]
struct Lock {
    from: StableState,
    to: StableState,
    gathers: u32,
}

#[repr(C)]
#[derive(Default)]
struct Wants {
    head: u32,
    asker: u32,
    loners: u32,
    loner: u32,
    loner_wants: u32,
    wanted: u32,
}

#[repr(C)]
#[derive(Default)]
struct Fault {
    at: u64,
    kind: u32,
}

extern "C" {
    fn baybowl_allowed(part: u32, lock: *const Lock, client: u32, caps: *mut u32) -> u32;
    fn baybowl_target(part: u32, state: *const StableState, wants: *const Wants, target: *mut StableState) -> u32;
    fn baybowl_grants_write(
        grants: *const c_char,
        grants_len: usize,
        room: *mut c_char,
        room_len: usize,
        len: *mut u64,
        fault: *mut Fault,
    ) -> u32;
    fn baybowl_fault_word(kind: u32) -> *const c_char;
}

/// The caps of the file that a client may hold under a lock.
fn allowed(lock: &Lock, client: u32) -> Result<u32, u32> {
    let mut caps = 0;
    // SAFETY: both references are valid for the call.
    match unsafe { baybowl_allowed(PART_F, lock, client, &mut caps) } {
        0 => Ok(caps),
        status => Err(status),
    }
}

/// Where the lock of the file is to go.
fn target(state: StableState, wants: &Wants) -> Result<StableState, u32> {
    let mut target = StableState::default();
    // SAFETY: all references are valid for the call.
    match unsafe { baybowl_target(PART_F, &state, wants, &mut target) } {
        0 => Ok(target),
        status => Err(status),
    }
}

/// The written form of grants, or the word and the place of their fault.
fn written(grants: &str) -> Result<String, String> {
    let (mut room, mut len, mut fault) = (vec![0u8; 256], 0, Fault::default());
    // SAFETY: the text and the room are as long as is said, and do not overlap.
    let status = unsafe {
        baybowl_grants_write(grants.as_ptr().cast(), grants.len(), room.as_mut_ptr().cast(), room.len(), &mut len, &mut fault)
    };
    if status == 0 {
        return Ok(String::from_utf8_lossy(&room[..len as usize]).into_owned());
    }
    // SAFETY: the word is NULL or a text that ends in a byte 0 and stays.
    let word = unsafe { baybowl_fault_word(fault.kind) };
    if word == ptr::null() {
        return Err(format!("status {status}"));
    }
    let word = unsafe { CStr::from_ptr(word) };
    Err(format!("{} at {}", word.to_string_lossy(), fault.at))
}

fn main() -> Result<(), u32> {
    let held = StableState { kind: EXCL, holder: 1 };
    let lock = Lock { from: held, ..Lock::default() };
    println!("in EXCL of 1: client 1 may write: {}, client 2: {}", allowed(&lock, 1)? & CAP_FW != 0, allowed(&lock, 2)? & CAP_FW != 0);

    // Client 2 wants to read, and client 1 goes on wanting to write: there is no loner any more.
    let wants = Wants { wanted: CAP_FR | CAP_FW, ..Wants::default() };
    let to = target(held, &wants)?;
    println!("the lock goes to MIX: {}", to.kind == MIX);

    let lock = Lock { from: held, to, gathers: 1 };
    println!("on the way: client 1 {}, client 2 {}", allowed(&lock, 1)?, allowed(&lock, 2)?);

    // Nobody writes: both may cache what they read.
    let wants = Wants { wanted: CAP_FR, ..Wants::default() };
    println!("then to SYNC: {}", target(to, &wants)?.kind == SYNC);
    let lock = Lock { from: StableState { kind: SYNC, holder: 0 }, ..Lock::default() };
    println!("in SYNC: client 2 may cache sizes: {}", allowed(&lock, 2)? & CAP_FS != 0);

    println!("no cap has bit 1: status {}", target(held, &Wants { wanted: 2, ..Wants::default() }).unwrap_err());
    println!("{}", written("allow * path=srv//www/").unwrap_or_else(|why| why));
    println!("{}", written("allow rwsp").unwrap_or_else(|why| why));
    Ok(())
}
