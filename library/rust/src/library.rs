//! The one function of the proved library.

extern "C" {
    fn fiuraccju_run(
        module: *const u8,
        module_length: usize,
        report: *mut u8,
        report_length: usize,
        work: *mut u8,
        work_length: usize,
    ) -> u64;
}

/// Analyses a module file into lent memory. The answer is packed, as `crate::refusal` and the C header have it.
pub(crate) fn run(module: &[u8], report: &mut [u8], work: &mut [u8]) -> u64 {
    // SAFETY: the library reads `module` and writes `report` and `work`, each within its length. Its contract, which is proved,
    // requires nothing else, and references tell that the three are there and apart.
    unsafe {
        fiuraccju_run(
            module.as_ptr(),
            module.len(),
            report.as_mut_ptr(),
            report.len(),
            work.as_mut_ptr(),
            work.len(),
        )
    }
}
