//! The form checks of the proved library.

use reference::Refusal;

#[link(name = "form_linked", kind = "static")]
extern "C" {
    /// The five values of the refusal that the form checks give on a module file, or five zeros.
    fn fiuraccju_form(module: *const u8, length: usize, told: *mut u32);
}

/// The refusal of the form checks, if they refuse.
pub fn form(module: &[u8]) -> Option<Refusal> {
    let mut told = [0u32; 5];
    // SAFETY: the library reads `length` bytes from `module` and writes five numbers to `told`; its contract, which is
    // proved, requires nothing else.
    unsafe { fiuraccju_form(module.as_ptr(), module.len(), told.as_mut_ptr()) };
    (told[0] != 0).then(|| Refusal {
        number: told[0] as u8,
        function: told[1] as u16,
        place: told[2] as u16,
        cause: told[3] as u8,
        value: told[4] as u16,
    })
}

/// Whether a refusal is one of the form checks' (01, section 2).
pub fn is_of_form(number: u8) -> bool {
    matches!(number, 2 | 3 | 4 | 5 | 6 | 10 | 15)
}
