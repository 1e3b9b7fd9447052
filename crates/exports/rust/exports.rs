//! The functions of the static library, for a program in Rust. ../c/side_board_loader.h has the layout
//! of the numbers.

#[link(name = "exports", kind = "static")]
extern "C" {
    fn loader_step(
        session: &mut u64,
        busy: &mut u16,
        config: &mut u64,
        setup: *const u8,
        setup_size: usize,
        sent: *const u8,
        sent_size: usize,
        flash: *mut u8,
        flash_size: usize,
        eeprom: *mut u8,
        eeprom_size: usize,
        reply: *mut u8,
        reply_size: usize,
        count: &mut usize,
        pages: &mut usize,
    ) -> u64;

    fn loader_power_up(busy: &mut u16) -> u64;

    fn loader_delivered() -> u64;

    fn loader_read_command(sent: *const u8, sent_size: usize, command: &mut u64, body: &mut usize, suffix: &mut usize) -> u8;

    fn loader_write_command(
        command: u64,
        body: *const u8,
        body_size: usize,
        suffix: *const u8,
        suffix_size: usize,
        room: *mut u8,
        room_size: usize,
        count: &mut usize,
    ) -> u8;

    fn loader_check_job(file: *const u8, file_size: usize, at: &mut usize) -> u8;

    fn loader_count_requests(file: *const u8, file_size: usize) -> usize;

    fn serial_step(
        config: &mut u32,
        characters: *const u8,
        characters_size: usize,
        flash: *mut u8,
        flash_size: usize,
        room: *mut u8,
        room_size: usize,
        count: &mut usize,
        pages: &mut usize,
    ) -> u64;

    fn serial_delivered() -> u32;

    fn serial_read_record(
        characters: *const u8,
        characters_size: usize,
        room: *mut u8,
        room_size: usize,
        offset: &mut u16,
        kind: &mut u8,
        count: &mut usize,
    ) -> u8;

    fn serial_write_record(
        offset: u16,
        kind: u8,
        sent: *const u8,
        sent_size: usize,
        room: *mut u8,
        room_size: usize,
        count: &mut usize,
    ) -> u8;
}

/// Takes one request: the outcome, how many bytes of the reply are sent, and how many pages were stored. `busy` is the session's busy page
/// count, which the session's number has no room for.
#[inline(always)]
pub fn step(
    session: &mut u64,
    busy: &mut u16,
    config: &mut u64,
    setup: &[u8],
    sent: &[u8],
    flash: &mut [u8],
    eeprom: &mut [u8],
    reply: &mut [u8],
) -> (u64, usize, usize) {
    let (mut count, mut pages) = (0, 0);
    // Each slice is a pointer and a length, and none overlaps another.
    let outcome = unsafe {
        loader_step(
            session,
            busy,
            config,
            setup.as_ptr(),
            setup.len(),
            sent.as_ptr(),
            sent.len(),
            flash.as_mut_ptr(),
            flash.len(),
            eeprom.as_mut_ptr(),
            eeprom.len(),
            reply.as_mut_ptr(),
            reply.len(),
            &mut count,
            &mut pages,
        )
    };
    (outcome, count, pages)
}

/// The session and its busy page count after power-up.
#[inline(always)]
pub fn power_up() -> (u64, u16) {
    let mut busy = u16::MAX; // what it was before does not count
    let session = unsafe { loader_power_up(&mut busy) };
    (session, busy)
}

/// The configuration of a board as it is delivered.
#[inline(always)]
pub fn delivered() -> u64 {
    unsafe { loader_delivered() }
}

/// Reads the data of a DNLOAD: 0, 0Fh or 08h; where it is 0, the command and where its body and its suffix begin.
#[inline(always)]
pub fn read_command(sent: &[u8]) -> (u8, u64, usize, usize) {
    let (mut command, mut body, mut suffix) = (0, 0, 0);
    let answer = unsafe { loader_read_command(sent.as_ptr(), sent.len(), &mut command, &mut body, &mut suffix) };
    (answer, command, body, suffix)
}

/// Writes a command into the room: 0, 8 or 9, and how many bytes were written.
#[inline(always)]
pub fn write_command(command: u64, body: &[u8], suffix: &[u8], room: &mut [u8]) -> (u8, usize) {
    let mut count = 0;
    let answer = unsafe {
        loader_write_command(
            command,
            body.as_ptr(),
            body.len(),
            suffix.as_ptr(),
            suffix.len(),
            room.as_mut_ptr(),
            room.len(),
            &mut count,
        )
    };
    (answer, count)
}

/// The verdict on a job file: 0 or the number of its refusal, and the offset of the bad field's tag.
#[inline(always)]
pub fn check_job(file: &[u8]) -> (u8, usize) {
    let mut at = 0;
    let number = unsafe { loader_check_job(file.as_ptr(), file.len(), &mut at) };
    (number, at)
}

/// How many requests a job holds.
#[inline(always)]
pub fn count_requests(file: &[u8]) -> usize {
    unsafe { loader_count_requests(file.as_ptr(), file.len()) }
}

/// The serial plug.
pub mod serial {
    /// Takes one record: the outcome, how many characters of the answer stand in the room, and how many pages were stored.
    #[inline(always)]
    pub fn step(config: &mut u32, characters: &[u8], flash: &mut [u8], room: &mut [u8]) -> (u64, usize, usize) {
        let (mut count, mut pages) = (0, 0);
        let outcome = unsafe {
            super::serial_step(
                config,
                characters.as_ptr(),
                characters.len(),
                flash.as_mut_ptr(),
                flash.len(),
                room.as_mut_ptr(),
                room.len(),
                &mut count,
                &mut pages,
            )
        };
        (outcome, count, pages)
    }

    /// The configuration of a board as it is delivered.
    #[inline(always)]
    pub fn delivered() -> u32 {
        unsafe { super::serial_delivered() }
    }

    /// Reads the characters of a record: 0, 1, 17 or 9. Where it is 0, the data stand at the front of the room, and the load offset,
    /// the type and how many bytes of data there are stand in the three numbers, which otherwise stay.
    #[inline(always)]
    pub fn read_record(characters: &[u8], room: &mut [u8], offset: &mut u16, kind: &mut u8, count: &mut usize) -> u8 {
        let (lent, size) = (room.as_mut_ptr(), room.len());
        unsafe { super::serial_read_record(characters.as_ptr(), characters.len(), lent, size, offset, kind, count) }
    }

    /// Writes a record into the room: 0, 17 or 9, and how many characters were written.
    #[inline(always)]
    pub fn write_record(offset: u16, kind: u8, sent: &[u8], room: &mut [u8]) -> (u8, usize) {
        let (lent, size, mut count) = (room.as_mut_ptr(), room.len(), 0);
        let answer = unsafe { super::serial_write_record(offset, kind, sent.as_ptr(), sent.len(), lent, size, &mut count) };
        (answer, count)
    }
}
