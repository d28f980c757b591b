//! The archive's correction.

#[link(name = "tecelume", kind = "static")]
extern "C" {
    fn tecelume_patch_word(checksum: u32, old: u32, new: u32, after: u64) -> u64;
}

pub fn patch(checksum: u32, old: u32, new: u32, after: u64) -> u64 {
    unsafe { tecelume_patch_word(checksum, old, new, after) }
}
