//! The original frame_info.rs, unchanged.

include!(concat!(env!("GGRS_SRC"), "/frame_info.rs"));
