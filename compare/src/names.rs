// The functions of the static library by their names behind `nizgulk_`, for build.rs and for the measuring programs.

/// In the order of `kind`.
pub const NAMES: [&str; 14] = [
    "create",
    "begin",
    "append",
    "clear",
    "commit",
    "roll_back",
    "begin_ro",
    "end_ro",
    "scan_rw",
    "scan_ro",
    "advance_lse",
    "purge",
    "save",
    "recover",
];
