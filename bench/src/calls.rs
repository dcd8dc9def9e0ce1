//! The calls that are measured: of the library, of mbedTLS and of OpenSSL.

/// Whether the library's calls are there.
pub const ARE_THERE: bool = cfg!(feature = "here");

/// What the names of candidates begin with whose calls are not there.
pub fn missing() -> Vec<&'static str> {
    [("here", ARE_THERE), ("mbedTLS 3.6", cfg!(mbedtls))].iter().filter(|(_, is_there)| !is_there).map(|(name, _)| *name).collect()
}

/// Calls over octets, each of which answers a count or a length: a module with a condition on which they are linked.
macro_rules! of_octets {
    ($module:ident if $linked:meta; $($call:ident)*) => {
        #[cfg($linked)]
        unsafe extern "C" {
            $(fn $call(octets: *const u8, len: usize) -> usize;)*
        }

        $(
            #[cfg(not($linked))]
            unsafe extern "C" fn $call(_octets: *const u8, _len: usize) -> usize {
                0
            }
        )*

        pub mod $module {
            $(
                pub fn $call(octets: &[u8]) -> usize {
                    // SAFETY: the call reads the slice and keeps nothing of it.
                    unsafe { super::$call(octets.as_ptr(), octets.len()) }
                }
            )*
        }
    };
}

of_octets! {
    mbedtls if mbedtls;
    beside_mbedtls_certificate beside_mbedtls_certificate_names beside_mbedtls_revoked beside_mbedtls_walk
}

of_octets! {
    octets if feature = "here";
    walk walk_headers
    read_i64 read_u64
    read_set read_octet_set rewrite_set
    read_bits rewrite_bits read_octets rewrite_octets
    read_oid rewrite_oid read_utf8 rewrite_utf8
    read_printable rewrite_printable read_utc rewrite_utc read_time rewrite_time
    read_bool rewrite_bool read_explicit rewrite_explicit
    read_bits_owned rewrite_bits_owned read_octets_owned rewrite_octets_owned
    read_string_owned rewrite_string_owned read_printable_owned rewrite_printable_owned
    read_int_owned rewrite_int_owned
    read_certificate read_certificate_names rewrite_certificate check_revoked read_revoked read_signed read_status
}

macro_rules! of_other_types {
    ($(fn $call:ident($($argument:ident: $of:ty),*) -> $answer:ty;)*) => {
        #[cfg(feature = "here")]
        unsafe extern "C" {
            $(fn $call($($argument: $of),*) -> $answer;)*
        }

        $(
            #[cfg(not(feature = "here"))]
            unsafe extern "C" fn $call($(_: $of),*) -> $answer {
                0
            }
        )*
    };
}

of_other_types! {
    fn write_i64(values: *const i64, len: usize) -> usize;
    fn less_i64(a: *const i64, a_len: usize, b: *const i64, b_len: usize) -> u32;
    fn less_octets(a: *const u8, a_len: usize, b: *const u8, b_len: usize, rounds: u32) -> u32;
    fn less_list(a: *const u8, a_len: usize, b: *const u8, b_len: usize, rounds: u32) -> u32;
    fn write_behind_1(octets: *const u8, len: usize, rounds: u32) -> usize;
    fn write_behind_11(octets: *const u8, len: usize, rounds: u32) -> usize;
}

unsafe extern "C" {
    fn openssl_walk(octets: *const u8, len: usize) -> i64;
    fn openssl_read_i64(octets: *const u8, len: usize) -> i64;
    fn openssl_prepare(octets: *const u8, len: usize);
    fn openssl_write_i64() -> i64;
    fn openssl_rewrite_set(octets: *const u8, len: usize) -> i64;
}

/// Writes a SEQUENCE of these, and answers its octets' number.
pub fn library_write_i64(values: &[i64]) -> usize {
    // SAFETY: the call reads the slice and keeps nothing of it.
    unsafe { write_i64(values.as_ptr(), values.len()) }
}

/// How many of the pairs are in `der_cmp`'s order.
pub fn library_less_i64(a: &[i64], b: &[i64]) -> usize {
    // SAFETY: as above, here and below.
    unsafe { less_i64(a.as_ptr(), a.len(), b.as_ptr(), b.len()) as usize }
}

/// The same of the OCTET STRINGs of two SEQUENCEs, so many times.
pub fn library_less_octets(a: &[u8], b: &[u8], rounds: u32) -> usize {
    unsafe { less_octets(a.as_ptr(), a.len(), b.as_ptr(), b.len(), rounds) as usize }
}

/// The same of two SEQUENCEs of INTEGERs, as lists.
pub fn library_less_list(a: &[u8], b: &[u8], rounds: u32) -> usize {
    unsafe { less_list(a.as_ptr(), a.len(), b.as_ptr(), b.len(), rounds) as usize }
}

/// Writes a SEQUENCE of these so many times, and answers its octets' number.
pub fn library_write_behind_1(octets: &[u8], rounds: u32) -> usize {
    unsafe { write_behind_1(octets.as_ptr(), octets.len(), rounds) }
}

/// The same within ten lists.
pub fn library_write_behind_11(octets: &[u8], rounds: u32) -> usize {
    unsafe { write_behind_11(octets.as_ptr(), octets.len(), rounds) }
}

/// OpenSSL's headers of a tree of values.
pub fn ossl_walk(octets: &[u8]) -> usize {
    unsafe { openssl_walk(octets.as_ptr(), octets.len()) as usize }
}

/// OpenSSL's reading of a SEQUENCE of INTEGERs.
pub fn ossl_read_i64(octets: &[u8]) -> usize {
    unsafe { openssl_read_i64(octets.as_ptr(), octets.len()) as usize }
}

/// Keeps the value that `ossl_write_i64` writes.
pub fn ossl_prepare(octets: &[u8]) {
    unsafe { openssl_prepare(octets.as_ptr(), octets.len()) }
}

/// OpenSSL's writing of the value that was kept.
pub fn ossl_write_i64() -> usize {
    unsafe { openssl_write_i64() as usize }
}

/// OpenSSL's reading and writing of a SET of INTEGERs.
pub fn ossl_rewrite_set(octets: &[u8]) -> usize {
    unsafe { openssl_rewrite_set(octets.as_ptr(), octets.len()) as usize }
}
