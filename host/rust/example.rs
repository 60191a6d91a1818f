#[link(name = "kinphlor", kind = "static")]
unsafe extern "C" {
    fn kinphlor_seal(
        key: *const u8, key_len: usize, header: *const u8, header_len: usize, ad_len: u32, nonce_len: u32,
        input: *const u8, input_len: usize, output: *mut u8, output_len: usize, scratch: *mut u8, scratch_len: usize,
    ) -> u64;
}

fn main() {
    let (key, header, record) = (*b"a key for show, not for real use", *b"lane 7: record 1", [1u8; 40]);
    let (mut sealed, mut scratch) = ([0u8; 56], [0u8; 40]);
    // Arrays are valid for their lengths and never null, and the two that are written overlap no other.
    let result = unsafe {
        kinphlor_seal(
            key.as_ptr(), key.len(), header.as_ptr(), header.len(), 8, 8, record.as_ptr(), record.len(),
            sealed.as_mut_ptr(), sealed.len(), scratch.as_mut_ptr(), scratch.len(),
        )
    };
    assert_eq!((result >> 32, result & 0xfff_ffff), (0, 56), "the answer and the length");
    println!("sealed: {sealed:02x?}");
}
