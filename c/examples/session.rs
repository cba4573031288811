//! The grants of a session: read once where it opens, asked by the threads that serve it. Plain rustc; tools/dev c-library builds it.

use std::ffi::{c_char, c_void, CStr};
use std::fmt;
use std::ptr;
use std::thread;

const VERSION: u32 = 3;
const READ: u32 = 0;
const WRITE: u32 = 1;
const OK: u32 = 0;
const ROOM: u32 = 11;

#[repr(C)]
struct Question {
    uid: u32,
    gid: u32,
    owner: u32,
    group: u32,
    mode: u32,
    access: u32,
    number: u32,
}

#[repr(C)]
#[derive(Default)]
struct Answer {
    grant: u32,
    count: u32,
    rules: [u8; 16],
}

#[repr(C)]
#[derive(Default)]
struct Fault {
    at: u64,
    kind: u32,
}

extern "C" {
    fn baybowl_version() -> u32;
    fn baybowl_grants_read(
        grants: *const c_char,
        grants_len: usize,
        fs: *const c_char,
        fs_len: usize,
        block: *mut c_void,
        block_len: usize,
        needed: *mut u64,
        fault: *mut Fault,
    ) -> u32;
    fn baybowl_verdict_by(
        block: *const c_void,
        block_len: usize,
        path: *const c_char,
        path_len: usize,
        groups: *const u32,
        groups_len: usize,
        question: *const Question,
        answer: *mut Answer,
    ) -> u32;
    fn baybowl_rule_word(rule: u32) -> *const c_char;
    fn baybowl_fault_word(kind: u32) -> *const c_char;
}

/// A word of the library, or `none` for a number that has none.
fn word(word: *const c_char) -> String {
    if word.is_null() {
        return "none".to_owned();
    }
    // SAFETY: a word ends in a byte 0 and stays.
    unsafe { CStr::from_ptr(word) }.to_string_lossy().into_owned()
}

/// Why there is no answer: a status of the library, and the fault of a grant text.
#[derive(Debug)]
struct Trouble {
    status: u32,
    fault: Option<String>,
}

impl fmt::Display for Trouble {
    fn fmt(&self, out: &mut fmt::Formatter) -> fmt::Result {
        match &self.fault {
            Some(fault) => write!(out, "{fault}"),
            None => write!(out, "status {}", self.status),
        }
    }
}

/// Grants that were read. The room is aligned as a block is, since it is one of eight bytes each.
struct Grants {
    room: Vec<u64>,
}

impl Grants {
    /// Reads a text, for a client on a file system.
    fn read(text: &str, fs: &str) -> Result<Grants, Trouble> {
        // The first call only tells how much room is needed.
        let (status, needed, fault) = fill(text, fs, &mut []);
        if status != ROOM {
            return Err(trouble(status, &fault));
        }
        let mut room = vec![0; (needed as usize).div_ceil(8)];
        let (status, _, fault) = fill(text, fs, &mut room);
        if status != OK {
            return Err(trouble(status, &fault));
        }
        Ok(Grants { room })
    }

    /// Which grant allows, or why each fails. It takes no memory for such a path, and any number of threads may ask.
    fn verdict(&self, path: &str, groups: &[u32], question: &Question) -> Result<Answer, Trouble> {
        let mut answer = Answer::default();
        // SAFETY: the room, the path and the groups are as long as is said, and the answer is apart from them.
        let status = unsafe {
            baybowl_verdict_by(
                self.room.as_ptr().cast(),
                self.room.len() * 8,
                path.as_ptr().cast(),
                path.len(),
                groups.as_ptr(),
                groups.len(),
                question,
                &mut answer,
            )
        };
        if status == OK { Ok(answer) } else { Err(Trouble { status, fault: None }) }
    }
}

/// Fills a room. Gives the status, how many bytes are needed, and the fault.
fn fill(text: &str, fs: &str, room: &mut [u64]) -> (u32, u64, Fault) {
    let (mut needed, mut fault) = (0, Fault::default());
    // SAFETY: the texts and the room are as long as is said, and apart from each other.
    let status = unsafe {
        baybowl_grants_read(
            text.as_ptr().cast(),
            text.len(),
            fs.as_ptr().cast(),
            fs.len(),
            if room.is_empty() { ptr::null_mut() } else { room.as_mut_ptr().cast() },
            room.len() * 8,
            &mut needed,
            &mut fault,
        )
    };
    (status, needed, fault)
}

fn trouble(status: u32, fault: &Fault) -> Trouble {
    // SAFETY: the call takes any number.
    let word = |kind| word(unsafe { baybowl_fault_word(kind) });
    Trouble { status, fault: (fault.kind != 0).then(|| format!("{} at {}", word(fault.kind), fault.at)) }
}

/// One request of user 9, on an inode of the user 8 with mode 0644.
fn served(grants: &Grants, access: u32, path: &str) -> Result<String, Trouble> {
    let question = Question { uid: 9, gid: 50, owner: 8, group: 50, mode: 0o644, access, number: 0 };
    let answer = grants.verdict(path, &[51], &question)?;
    if answer.grant != 0 {
        return Ok(format!("allowed by grant {}", answer.grant));
    }
    // SAFETY: the call takes any number.
    let word = |rule: &u8| word(unsafe { baybowl_rule_word(u32::from(*rule)) });
    let rules: Vec<String> = answer.rules[..answer.count as usize].iter().map(word).collect();
    Ok(format!("denied: {}", rules.join(", ")))
}

fn main() -> Result<(), Trouble> {
    // SAFETY: the call takes nothing.
    if unsafe { baybowl_version() } != VERSION {
        return Err(Trouble { status: 0, fault: Some("another version of the library".to_owned()) });
    }
    let grants = Grants::read("allow rw path=/home/9, allow rw path=/shared uid=9 gids=51, allow r", "cephfs")?;
    let requests = [(WRITE, "/home/9/notes"), (WRITE, "/home/99"), (READ, "/home/99"), (WRITE, "/shared/list")];
    let shared = &grants;
    let said = thread::scope(|scope| {
        let running = requests.map(|(access, path)| scope.spawn(move || served(shared, access, path)));
        running.map(|it| it.join().expect("a thread that ends"))
    });
    for ((access, path), said) in requests.into_iter().zip(said) {
        println!("{} {path}: {}", if access == READ { "read" } else { "write" }, said?);
    }
    match Grants::read("allow rw path=/home/9, allow rwsp", "cephfs") {
        Ok(_) => println!("read"),
        Err(why) => println!("refused: {why}"),
    }
    Ok(())
}
