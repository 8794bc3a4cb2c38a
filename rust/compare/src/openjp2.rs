//! Crate openjp2's own packet functions, built from its sources, and stand-ins for what they name of its other modules. None of the
//! stand-ins decides a bit of a packet.
#![allow(warnings, clippy::all)]

pub mod openjpeg {
    use core::alloc::Layout;
    pub type OPJ_BYTE = u8;
    pub type OPJ_CHAR = core::ffi::c_char;
    pub type OPJ_BOOL = i32;
    pub type OPJ_INT32 = i32;
    pub type OPJ_UINT16 = u16;
    pub type OPJ_UINT32 = u32;
    pub type OPJ_UINT64 = u64;
    pub type OPJ_FLOAT32 = f32;
    pub type OPJ_FLOAT64 = f64;
    pub type OPJ_OFF_T = i64;
    pub type OPJ_SIZE_T = usize;
    pub type size_t = usize;
    pub type OPJ_PROG_ORDER = i32;
    pub type J2K_T2_MODE = u32;
    pub const FINAL_PASS: J2K_T2_MODE = 1;
    #[derive(Copy, Clone)]
    pub struct MCTElementType;
    #[derive(Copy, Clone)]
    pub struct opj_poc_t;
    pub struct opj_image_t;
    // No packet information is asked for: these are only named.
    #[derive(Copy, Clone)]
    pub struct opj_packet_info_t {
        pub start_pos: i64,
        pub end_ph_pos: i64,
        pub end_pos: i64,
        pub disto: f64,
    }
    pub struct opj_tile_info_t {
        pub packet: *mut opj_packet_info_t,
    }
    pub struct opj_codestream_info_t {
        pub D_max: f64,
        pub packno: i32,
        pub index_write: i32,
        pub tile: *mut opj_tile_info_t,
    }
    include!(concat!(env!("OUT_DIR"), "/types.rs"));
}

#[macro_use]
pub mod event {
    pub enum EventType {
        Error,
        Warning,
    }
    pub const EVT_ERROR: EventType = EventType::Error;
    pub const EVT_WARNING: EventType = EventType::Warning;

    /// Which of the messages were given that say something of a packet.
    #[derive(Default)]
    pub struct opj_event_mgr {
        pub sop: u64,
        pub eph: u64,
        pub width: bool,
    }

    impl opj_event_mgr {
        #[cold]
        pub fn told(&mut self, message: &str) -> i32 {
            match message {
                "Not enough space for expected SOP marker\n" => self.sop = 1,
                "Expected SOP marker\n" => self.sop = 2,
                "Not enough space for expected EPH marker\n" => self.eph = 1,
                "Expected EPH marker\n" => self.eph = 2,
                _ => self.width |= message.starts_with("Invalid bit number"),
            }
            1
        }
    }

    macro_rules! event_msg {
        ($manager:expr, $kind:expr, $message:expr $(, $argument:expr)* $(,)?) => {{
            $(let _ = &$argument;)*
            $manager.told($message)
        }};
    }
}

pub mod malloc {
    include!(concat!(env!("OPENJP2_SRC"), "/malloc.rs"));
}
pub mod math {
    include!(concat!(env!("OPENJP2_SRC"), "/math.rs"));
}
pub mod bio {
    include!(concat!(env!("OPENJP2_SRC"), "/bio.rs"));
}
pub mod tgt {
    include!(concat!(env!("OPENJP2_SRC"), "/tgt.rs"));
}

pub mod tcd {
    use super::openjpeg::*;
    extern "C" {
        fn memset(_: *mut core::ffi::c_void, _: core::ffi::c_int, _: usize) -> *mut core::ffi::c_void;
    }
    include!(concat!(env!("OUT_DIR"), "/tcd.rs"));
}

pub mod t2 {
    use super::bio::*;
    use super::event::*;
    use super::malloc::*;
    use super::math::*;
    use super::openjpeg::*;
    use super::tcd::*;
    use super::tgt::*;

    pub struct opj_pi_iterator_t {
        pub layno: u32,
        pub resno: u32,
        pub compno: u32,
        pub precno: u32,
    }

    mod log {
        macro_rules! debug {
            ($($t:tt)*) => {};
        }
        pub(crate) use debug;
    }

    extern "C" {
        fn memset(_: *mut core::ffi::c_void, _: core::ffi::c_int, _: usize) -> *mut core::ffi::c_void;
        fn memcpy(_: *mut core::ffi::c_void, _: *const core::ffi::c_void, _: usize) -> *mut core::ffi::c_void;
    }
    include!(concat!(env!("OUT_DIR"), "/t2.rs"));

    // Below this module, so that the crate's private functions can be called.
    pub mod precinct;
}
