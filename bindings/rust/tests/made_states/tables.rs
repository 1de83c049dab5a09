//! The sound state with a word or two changed: a case's name, and the changes. Each breaks one clause of soundness,
//! except those of `UNREAD` and `LAST_RECORD`.

pub type Row = (&'static str, &'static str);

pub const SERVICES: &[Row] = &[
    ("# a channel neither closed nor ready", "0 = 2"),
    ("# live services on a closed channel", "2 = 0"),
    ("# a service neither idle, offered nor registered", "STAGE = 3"),
    ("# a minor version above 65535", "MINOR = HIGHEST_MINOR + 1"),
    ("# a live handle 0", "HANDLE = TOP_BIT"),
    ("# a live handle without the top bit", "HANDLE = 2"),
    ("# a live handle above the last number", "HANDLE = TOP_BIT + 10"),
    ("# two live handles the same", "HANDLE = TOP_BIT + 3"),
];

/// Places of words that have no meaning in the sound state.
pub const UNREAD: &[Row] = &[
    ("# an idle service with a handle", "HANDLE + 3 * SERVICE_WORDS"),
    ("# an idle service with a minor version", "MINOR + 3 * SERVICE_WORDS"),
    ("# an offered service with a minor version", "MINOR + 2 * SERVICE_WORDS"),
    ("# a third block's base, where two are held", "SECOND + BLOCK_WORDS"),
    ("# a third record's address, in a removal of two", "FIRST_ADDRESS_WORD + 2"),
    ("# the result of a record that is not settled", "FIRST_RESULT_WORD"),
    ("# a word after a device's name", "DEVICE + NAME_PLACE + 1"),
    ("# a delay without an order", "DELAY_WORD"),
    ("# a third device's name, where two are held", "DEVICE + 2 * DEVICE_WORDS + NAME_BYTES_PLACE"),
    ("# a word after an id", "ID + ID_PLACE + 1"),
    ("# a third id's bytes, where two are held", "ID + 2 * ID_WORDS + ID_BYTES_PLACE"),
    ("# the handle of an id that is not registered", "PEER_HANDLE + 1"),
    ("# the minor version of an id that is not registered", "PEER_MINOR + 1"),
];

pub const BLOCKS: &[Row] = &[
    ("# a base that is no multiple of 8192", "FIRST = 0x10000001"),
    ("# a block of 0 pages", "FIRST + PAGES_PLACE = 0"),
    ("# a block of 1048577 pages", "SECOND + PAGES_PLACE = 1048577"),
    ("# a block that ends above the base after it", "FIRST + PAGES_PLACE = 32769"),
    ("# a block that ends above 2^63", "SECOND = 9223372036854767616"),
    ("# permanent pages beyond the block's pages", "FIRST + PERMANENT_PLACE = 5"),
    ("# a first permanent page with a count of 0", "FIRST + FIRST_PLACE = 1"),
    ("# permanent pages in an unconfigured block", "SECOND + PERMANENT_PLACE = 1"),
    ("# a block neither configured nor not", "FIRST + CONFIGURED_PLACE = 2"),
];

pub const COUNTS: &[Row] = &[
    ("# a last number above 4294967295", "LAST_WORD = HIGHEST_NUMBER + 1"),
    ("# more held than numbered", "HELD_WORD = 10"),
    ("# 65 entries held", "LAST_WORD = 100, HELD_WORD = 65"),
    ("# outstanding neither 0 nor 1", "OUTSTANDING_WORD = 2"),
    ("# cancelled neither 0 nor 1", "CANCELLED_WORD = 2"),
];

pub const REMOVALS: &[Row] = &[
    ("# a removal's channel above 3", "REMOVAL_CHANNEL_WORD = CHANNEL_COUNT"),
    ("# a removal's handle above the last number", "REMOVAL_HANDLE_WORD = TOP_BIT + 10"),
    ("# a removal's handle without the top bit", "REMOVAL_HANDLE_WORD = 2"),
    ("# a removal of 0 records", "COUNT_WORD = 0"),
    ("# a removal of 65 records", "COUNT_WORD = MOST_RECORDS + 1"),
    ("# a position above the records' count", "POSITION_WORD = 3"),
    ("# all pages of the block collected", "COLLECTED_WORD = 4"),
    ("# pages collected where the record names no block", "FIRST_ADDRESS_WORD = 0x30000000, COLLECTED_WORD = 1"),
    ("# pages collected of an unconfigured block", "POSITION_WORD = 1, COLLECTED_WORD = 1"),
    ("# a settled record neither OK nor NOWORK", "POSITION_WORD = 1, FIRST_RESULT_WORD = 1"),
];

/// A removal of 64 records at its last one, and with all settled.
pub const LAST_RECORD: &[Row] = &[
    ("# a removal at record 63 of 64", "COUNT_WORD = MOST_RECORDS, POSITION_WORD = 63"),
    ("# a removal of 64 records, all settled", "COUNT_WORD = MOST_RECORDS, POSITION_WORD = 64"),
];

pub const PAST_RECORDS: &[Row] = &[
    ("# a removal of 64 records at position 65", "COUNT_WORD = MOST_RECORDS, POSITION_WORD = 65"),
    (
        "# record 63 settled neither OK nor NOWORK",
        "COUNT_WORD = MOST_RECORDS, POSITION_WORD = 64, FIRST_RESULT_WORD + 63 = 1",
    ),
];

/// The first device's name has five bytes with its zero.
pub const DEVICES: &[Row] = &[
    ("# 33 devices", "DEVICE_COUNT_WORD = 33"),
    ("# a device neither configured nor not", "DEVICE + DEVICE_CONFIGURED_PLACE = 2"),
    ("# a device neither busy nor not", "DEVICE + BUSY_PLACE = 2"),
    ("# a name of no bytes", "DEVICE + NAME_BYTES_PLACE = 0"),
    ("# a name of 257 bytes", "DEVICE + NAME_BYTES_PLACE = 257"),
    ("# a name without its zero", "DEVICE + NAME_PLACE = 0x6469736b73000000"),
    ("# a name with a second zero", "DEVICE + NAME_PLACE = 0x6400736b00000000"),
    ("# a byte other than 0 after a name, in its last word", "DEVICE + NAME_PLACE = DISK + 1"),
    ("# an id and name twice", "DEVICE + DEVICE_WORDS + NAME_PLACE = DISK"),
];

pub const ORDERS: &[Row] = &[
    ("# service 2 neither permitted nor denied", "FIRST_PERMISSION_WORD = 2"),
    ("# service 3 neither permitted nor denied", "FIRST_PERMISSION_WORD + 1 = 2"),
    ("# an order that is none of the three", "ORDER_WORD = 3"),
    ("# a shutdown's delay of 2^32", "ORDER_WORD = ORDER_SHUTDOWN, DELAY_WORD = HIGHEST_DELAY + 1"),
];

/// The first id has seven bytes with its zero.
pub const IDS: &[Row] = &[
    ("# 17 ids", "ID_COUNT_WORD = 17"),
    ("# a major above 65535", "ID = 65536"),
    ("# a highest minor above 65535", "ID + ID_MINOR_PLACE = 65536"),
    ("# an id of no bytes", "ID + ID_BYTES_PLACE = 0"),
    ("# an id of 33 bytes", "ID + ID_BYTES_PLACE = 33"),
    ("# an id without its zero", "ID + ID_PLACE = 0x73702d6c6f677300"),
    ("# an id with a second zero", "ID + ID_PLACE = 0x73002d6c6f670000"),
    ("# a byte other than 0 after an id, in its last word", "ID + ID_PLACE = SP_LOG + 1"),
    ("# an id twice", "ID + ID_WORDS + ID_PLACE = SP_LOG"),
];

pub const PEERS: &[Row] = &[
    ("# a peer registration on a closed channel", "PEER - PEER_WORDS = 1"),
    ("# a peer registration of an id that is not listed", "PEER = 0b101"),
    ("# a peer's handle with the top bit", "PEER_HANDLE = TOP_BIT"),
    ("# a peer's minor version above the list's", "PEER_MINOR = 3"),
    ("# two peer handles of a channel the same", "PEER = 0b11, PEER_HANDLE + 1 = 5"),
];
