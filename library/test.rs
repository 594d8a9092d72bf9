//! The library from Rust: a KeNB and a MAC, beside what Python's hmac and TS 33.401 C.2 have.
#[link(name = "lte_sec", kind = "static")]
extern "C" {
    fn ltesec_kenb(kasme: *const u8, count: u32, kenb: *mut u8) -> u32;
    fn ltesec_eia2(key: *const u8, count: u32, bearer: u32, direction: u32, text: *const u8, length: usize, mac: *mut u8) -> u32;
}

fn main() {
    let kasme: [u8; 32] = std::array::from_fn(|i| i as u8);
    let (mut kenb, mut mac) = ([0; 32], [0; 4]);
    assert_eq!(unsafe { ltesec_kenb(kasme.as_ptr(), 0, kenb.as_mut_ptr()) }, 0);
    assert_eq!(kenb[..4], [0xe6, 0x26, 0x73, 0x59]);
    let key = 0xd3c5d592327fb11c4035c6680af8c6d1u128.to_be_bytes();
    let text = 0x484583d5afe082aeu64.to_be_bytes();
    let status = unsafe { ltesec_eia2(key.as_ptr(), 0x398a59b4, 26, 1, text.as_ptr(), text.len(), mac.as_mut_ptr()) };
    assert_eq!((status, mac), (0, [0xb9, 0x37, 0x87, 0xe6]));
    println!("Rust: a KeNB and a MAC as published");
}
