//! The proved side: the static library `bench_cores`.

use crate::paths::Frames;
use crate::plain::Shape;
use crate::script::Script;

mod library {
    // A slice is a pointer and a length.
    unsafe extern "C" {
        pub fn dagluwis_check_word(bytes: *const u8, len: usize) -> u16;
        pub fn dagluwis_read_configs(
            frames: *const u8,
            frames_len: usize,
            len: usize,
            rounds: u32,
        ) -> u64;
        pub fn dagluwis_read_data(
            frames: *const u8,
            frames_len: usize,
            len: usize,
            phasors: u8,
            analogs: u8,
            digitals: u8,
            time_base: u32,
            rate: u32,
            rounds: u32,
        ) -> u64;
        pub fn dagluwis_write_config(bytes: *const u8, len: usize, rounds: u32) -> u64;
        pub fn dagluwis_write_data(
            bytes: *const u8,
            len: usize,
            phasors: u8,
            analogs: u8,
            digitals: u8,
            rounds: u32,
        ) -> u64;
        pub fn dagluwis_table_steady(
            window: u64,
            behind: u64,
            instants: u32,
            bodies: *const u8,
            bodies_len: usize,
        ) -> u64;
        pub fn dagluwis_table_fill(
            window: u64,
            rounds: u32,
            bodies: *const u8,
            bodies_len: usize,
        ) -> u64;
        pub fn dagluwis_ring_steady(
            window: u64,
            behind: u64,
            instants: u32,
            bodies: *const u8,
            bodies_len: usize,
        ) -> u64;
        pub fn dagluwis_ring_fill(
            window: u64,
            rounds: u32,
            bodies: *const u8,
            bodies_len: usize,
        ) -> u64;
        pub fn dagluwis_node(
            text: *const u8,
            text_len: usize,
            steps: *const u8,
            steps_len: usize,
            data: *const u8,
            data_len: usize,
            floor: u64,
        ) -> u64;
        pub fn dagluwis_merger(
            text: *const u8,
            text_len: usize,
            steps: *const u8,
            steps_len: usize,
            data: *const u8,
            data_len: usize,
            floor: u64,
        ) -> u64;
    }
}

pub fn check_word(bytes: &[u8]) -> u16 {
    unsafe { library::dagluwis_check_word(bytes.as_ptr(), bytes.len()) }
}

pub fn read_configs(frames: Frames, rounds: u32) -> u64 {
    let Frames { bytes, len } = frames;
    unsafe { library::dagluwis_read_configs(bytes.as_ptr(), bytes.len(), len, rounds) }
}

pub fn read_data(frames: Frames, shape: Shape, time_base: u32, rate: u32, rounds: u32) -> u64 {
    let Frames { bytes, len } = frames;
    let Shape {
        phasors,
        analogs,
        digitals,
    } = shape;
    unsafe {
        library::dagluwis_read_data(
            bytes.as_ptr(),
            bytes.len(),
            len,
            phasors,
            analogs,
            digitals,
            time_base,
            rate,
            rounds,
        )
    }
}

pub fn write_config(bytes: &[u8], rounds: u32) -> u64 {
    unsafe { library::dagluwis_write_config(bytes.as_ptr(), bytes.len(), rounds) }
}

pub fn write_data(bytes: &[u8], shape: Shape, rounds: u32) -> u64 {
    let Shape {
        phasors,
        analogs,
        digitals,
    } = shape;
    unsafe {
        library::dagluwis_write_data(
            bytes.as_ptr(),
            bytes.len(),
            phasors,
            analogs,
            digitals,
            rounds,
        )
    }
}

pub fn ring_steady(window: u64, behind: u64, instants: u32, bodies: &[u8]) -> u64 {
    unsafe {
        library::dagluwis_ring_steady(window, behind, instants, bodies.as_ptr(), bodies.len())
    }
}

pub fn ring_fill(window: u64, rounds: u32, bodies: &[u8]) -> u64 {
    unsafe { library::dagluwis_ring_fill(window, rounds, bodies.as_ptr(), bodies.len()) }
}

pub fn sorted_steady(window: u64, behind: u64, instants: u32, bodies: &[u8]) -> u64 {
    unsafe {
        library::dagluwis_table_steady(window, behind, instants, bodies.as_ptr(), bodies.len())
    }
}

pub fn sorted_fill(window: u64, rounds: u32, bodies: &[u8]) -> u64 {
    unsafe { library::dagluwis_table_fill(window, rounds, bodies.as_ptr(), bodies.len()) }
}

pub fn node(text: &str, script: &Script, floor: u64) -> u64 {
    let (steps, data) = (&script.steps, &script.data);
    unsafe {
        library::dagluwis_node(
            text.as_ptr(),
            text.len(),
            steps.as_ptr(),
            steps.len(),
            data.as_ptr(),
            data.len(),
            floor,
        )
    }
}

pub fn merger(text: &str, script: &Script, floor: u64) -> u64 {
    let (steps, data) = (&script.steps, &script.data);
    unsafe {
        library::dagluwis_merger(
            text.as_ptr(),
            text.len(),
            steps.as_ptr(),
            steps.len(),
            data.as_ptr(),
            data.len(),
            floor,
        )
    }
}
