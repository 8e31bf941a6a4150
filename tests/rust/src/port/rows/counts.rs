//! How many rows of each kind the files have, of those that are calls on a port.

/// The kinds of rows of base.rows, and how many there are of each.
pub const BASE: [(&str, usize); 11] = [
    ("login", 652),
    ("take", 1393),
    ("plan", 98),
    ("step", 134),
    ("finish", 142),
    ("add", 106),
    ("withdraw", 112),
    ("grant", 248),
    ("close", 70),
    ("list", 1186),
    ("counters", 2337),
];

/// Those of job1.rows.
pub const JOB_1: [(&str, usize); 13] = [
    ("session", 160),
    ("login", 189),
    ("take", 673),
    ("plan", 343),
    ("move", 311),
    ("step", 298),
    ("finish", 286),
    ("add", 483),
    ("withdraw", 494),
    ("grant", 718),
    ("close", 16),
    ("list", 926),
    ("counters", 1383),
];

/// Those of job4.rows.
pub const JOB_4: [(&str, usize); 13] = [
    ("session", 160),
    ("login", 182),
    ("take", 912),
    ("plan", 459),
    ("move", 438),
    ("step", 276),
    ("finish", 289),
    ("add", 358),
    ("withdraw", 292),
    ("grant", 682),
    ("close", 32),
    ("list", 1119),
    ("counters", 1372),
];

/// Those of job5.rows.
pub const JOB_5: [(&str, usize); 13] = [
    ("session", 160),
    ("login", 178),
    ("take", 845),
    ("plan", 501),
    ("move", 504),
    ("step", 234),
    ("finish", 281),
    ("add", 308),
    ("withdraw", 297),
    ("grant", 503),
    ("close", 32),
    ("list", 1111),
    ("counters", 1307),
];

/// Those of job6.rows.
pub const JOB_6: [(&str, usize); 13] = [
    ("session", 160),
    ("login", 185),
    ("take", 764),
    ("plan", 464),
    ("move", 364),
    ("step", 347),
    ("finish", 247),
    ("add", 485),
    ("withdraw", 389),
    ("grant", 575),
    ("close", 34),
    ("list", 1003),
    ("counters", 1345),
];

/// Those of job7.rows.
pub const JOB_7: [(&str, usize); 14] = [
    ("session", 160),
    ("login", 183),
    ("take", 631),
    ("tables", 297),
    ("plan", 349),
    ("move", 338),
    ("step", 239),
    ("finish", 198),
    ("add", 387),
    ("withdraw", 292),
    ("grant", 633),
    ("close", 18),
    ("list", 875),
    ("counters", 1160),
];

/// Those of job8.rows.
pub const JOB_8: [(&str, usize); 15] = [
    ("session", 160),
    ("login", 192),
    ("take", 766),
    ("tables", 290),
    ("plan", 389),
    ("move", 437),
    ("step", 205),
    ("turn", 1030),
    ("finish", 231),
    ("add", 437),
    ("withdraw", 317),
    ("grant", 740),
    ("close", 24),
    ("list", 1308),
    ("counters", 1361),
];

/// Takes that levels below 7 lend tables to, by `earlier`'s kinds.
pub const BASE_LENT: [u64; 4] = [41, 8, 18, 7];
pub const JOB_1_LENT: [u64; 4] = [29, 2, 2, 17];
pub const JOB_4_LENT: [u64; 4] = [88, 4, 14, 20];
pub const JOB_5_LENT: [u64; 4] = [82, 7, 7, 19];
pub const JOB_6_LENT: [u64; 4] = [73, 2, 4, 17];
