/* libnx584.a: reader, writer, replies, table and overview of the NX-584 protocol, in both framings, the
 * line of commands that are sent until the gateway acknowledges them, the station log, and maps of the
 * zones as float grids.
 *
 * From a release, x86-64 or 64-bit Arm Linux:
 *
 *     tar xzf pyttelow-0.6-aarch64-linux-gnu.tar.gz
 *     cd pyttelow-0.6-aarch64-linux-gnu
 *     cc -std=c11 -O2 -Iinclude examples/host.c lib/libnx584.a -o unit
 *     ./unit --help
 *
 * From the source with the Rattle kit, on x86-64 Linux:
 *
 *     (cd crates/nx584 && rt lib)
 *     cc -std=c11 -O2 -Iinclude examples/host.c crates/nx584/out/libnx584.a -o unit
 *
 * The kit's own compiler, linker and C library do the same, whatever compiler the machine has:
 *
 *     (cd crates/nx584 && rt lib)
 *     tests/x86 compile -std=c11 -O2 -Iinclude examples/host.c -o target/unit.o
 *     tests/x86 link target/unit target/unit.o crates/nx584/out/libnx584.a
 *     tests/x86 run target/unit --help
 *
 * Pointers are valid for their lengths, the buffers of one call do not overlap, and NULL is passed
 * only with length 0. Every other argument is taken: a call refuses, with a number, and never traps.
 *
 * The library has no global and takes no memory from a heap: a call works on its arguments and on at
 * most NX584_STACK_MOST bytes of stack, calls no system and never waits. Threads may call it at the
 * same time; two calls that are lent the same table are kept apart by the caller where one of them
 * writes it (nx584_apply, nx584_hear), and two calls that are lent the same slots always. It needs
 * memcpy, memmove and memset of the C library and nothing else. Targets: x86-64 (System V calls) and,
 * as a release, 64-bit Arm, both little-endian, with a size_t of 8 bytes and IEEE doubles.
 *
 * No proof ties these lines to the library's source: the two are changed together, and the tests try
 * them. */
#ifndef NX584_H
#define NX584_H

#include <stddef.h>
#include <stdint.h>

#ifdef __cplusplus
extern "C" {
#endif

/* The version of these declarations: of the functions, the structs' layouts, the table's bytes and
 * what the numbers below mean. It grows when one of those changes, and only then. A program asks
 * nx584_version() first and stops where it is another number: it was compiled with one version of this
 * file and linked with an archive of another, and no answer would mean what it seems to. */
#define NX584_VERSION 6

/* ---- sizes */

#define NX584_LONGEST 255          /* the longest message that is read, its type byte included */
#define NX584_BINARY_FRAME_MOST 41 /* the longest binary frame that is written */
#define NX584_FRAME_MOST 44        /* the longest frame that is written, in either framing */
#define NX584_TABLE_BYTES 2132     /* a table; all zero is a fresh one */
#define NX584_ZONES 256
#define NX584_PARTITIONS 8
#define NX584_GROUPS 16            /* of 16 zones each */
#define NX584_SLOTS 8              /* of a line of commands; all zero is an empty line */
#define NX584_LONGEST_COMMAND 13   /* the longest command, its type byte included */
#define NX584_LOG_MOST 65536       /* the most bytes that a log uses */
#define NX584_LOG_ENOUGH 5236      /* a log of so many bytes has room for one more record when room was made */
#define NX584_GRID_HEADER_MOST 91  /* the longest header of a grid, that of the level 16 cells wide */
#define NX584_GRID_CELLS_MOST 1024 /* the cells of that level, which has the most */
#define NX584_STACK_MOST 4096      /* of stack in a call, with its operands and its answer; measured */

/* ---- numbers */

/* Framings. As an argument, any other number than 0 is ASCII. */
#define NX584_BINARY 0
#define NX584_ASCII 1

/* Rules of escapes: how a binary reader takes a 7Dh and the byte after it, which stands for that byte
 * XORed with 20h. In ASCII the rule has no effect. In a reader, any other number is as NX584_LENIENT. */
#define NX584_STRICT 0  /* 5Eh, 5Dh and 7Eh may follow a 7Dh; any other byte is NX584_BAD_ESCAPE */
#define NX584_LENIENT 1 /* the old rule: any byte may follow */

/* Modes of a reader. */
#define NX584_MODE_SKIPPING 0 /* up to the next start byte */
#define NX584_MODE_OPEN 1     /* in a frame */
#define NX584_MODE_ESCAPE 2   /* binary: after a 7Dh */
#define NX584_MODE_DIGIT 3    /* ASCII: a digit is pending */

/* Verdicts. */
#define NX584_GOOD 0
#define NX584_CUT_SHORT 1    /* a start byte came before the frame had its verdict */
#define NX584_NO_DIGIT 2     /* ASCII: no digit where one is due */
#define NX584_NO_STOP 3      /* ASCII: no 0Dh where the stop is due */
#define NX584_BAD_LENGTH 4   /* a length of 0 */
#define NX584_BAD_SUMS 5     /* the sums differ */
#define NX584_UNKNOWN 6      /* the number is none of the 41 */
#define NX584_WRONG_LENGTH 7 /* the length is not that of its number */
#define NX584_BAD_VALUE 8    /* a checked value is wrong */
#define NX584_BAD_ESCAPE 15  /* binary, strict: a 7Dh with a byte after it that needs none */
#define NX584_NONE 255       /* no verdict yet */

/* Refusals, beside 4, 6, 7 and 8. Of a message that is handed to a call, 4 is also a length above 255. 8 is
 * also a partition, or a grid's width, that there is not. */
#define NX584_NO_ROOM 9          /* the frame, a log's record, or a grid does not fit where it has to stand */
#define NX584_NO_TABLE 11        /* the buffer is not NX584_TABLE_BYTES long */
#define NX584_NOT_SOUND 12       /* the reader is none that the library made */
#define NX584_NO_COMMAND 13      /* a good message, and none of the 14 commands */
#define NX584_ALL_WAITING 14     /* a command waits in each of the eight slots */
#define NX584_LOG_USED 16        /* more used bytes than the buffer has, or than NX584_LOG_MOST */
#define NX584_LOG_NOT_SOUND 17   /* the used bytes are no log that the library made */
#define NX584_NOT_KEPT 18        /* a good message, and none of 04h to 08h */
#define NX584_SLOTS_NOT_SOUND 22 /* not NX584_SLOTS slots, or none that the library made */

/* How the front command ended in a call: not at all, given up, or by the message of this number. */
#define NX584_NOT_ENDED 0
#define NX584_GIVEN_UP 1              /* sent four times, and not ended by then */
#define NX584_ENDED_ACKNOWLEDGED 0x1D /* Positive Acknowledge */
#define NX584_ENDED_FAILED 0x1C       /* Command / Request Failed */
#define NX584_ENDED_REJECTED 0x1F     /* Message Rejected */
#define NX584_ENDED_REPLIED 0x12      /* User Information Reply, to a 34h or 35h */

/* Replies: messages of one byte. */
#define NX584_NO_REPLY 0
#define NX584_ACKNOWLEDGE 0x1D
#define NX584_NEGATIVE 0x1E
#define NX584_REJECTED 0x1F

/* Bits of a mark, and of a zone's short flags. */
#define NX584_HEARD 0x01        /* flags is as the panel said it; of the system: bytes is */
#define NX584_STATUS_HEARD 0x02 /* bytes is, too */
#define NX584_FAULTED 0x01
#define NX584_BYPASS 0x02
#define NX584_TROUBLE 0x04
#define NX584_ALARM_MEMORY 0x08

/* ---- structs */

/* A reader is a value: copy it, keep it, hand it to the next call. held: how many recovered bytes
 * stand in bytes, 258 at most. digit: the pending one. escapes: the rule of escapes, which every call
 * hands back as it was. */
typedef struct {
    uint8_t framing, mode, digit;
    uint16_t held;
    uint8_t bytes[NX584_LONGEST + 3];
    uint8_t escapes;
} nx584_reader;

/* verdict: 0 to 8, 12, 15 or NX584_NONE. type: the whole type byte for 0 and 6 to 8, else 0. length and
 * message: 0 and all zero unless verdict 0; zero beyond length. used: how many bytes were read. A good
 * message is one of the 41, of 18 bytes at most; a longer one is read, is unknown (6) or none of its
 * number (7), and is not handed out. */
typedef struct {
    nx584_reader reader;
    size_t used;
    uint8_t verdict, type, length;
    uint8_t message[NX584_LONGEST];
} nx584_reading;

/* As nx584_reading, with verdict also 11; reply: the number of the message to answer with, 0 none. */
typedef struct {
    nx584_reader reader;
    size_t used;
    uint8_t verdict, type, reply, length;
    uint8_t message[NX584_LONGEST];
} nx584_hearing;

/* number: 0 or the refusal. length: of the frame written, of the record that was added to a log, or of what
 * was won in one; 0 where it was refused. */
typedef struct {
    uint8_t number;
    size_t length;
} nx584_written;

/* known is 1 exactly if heard > 0. Where it is 0, share is a NaN: test known first. */
typedef struct {
    uint16_t heard, faulted;
    uint8_t known;
    double share;
} nx584_group;

/* number: 0 or 11. Group k, of zones 16k - 15 to 16k, is groups[k - 1]. */
typedef struct {
    uint8_t number;
    nx584_group groups[NX584_GROUPS];
    nx584_group site;
} nx584_overview;

/* number: 0 or 11. bytes: partition mask, type flags 1 to 3, condition flags 1 and 2. flags: the
 * short flags. */
typedef struct {
    uint8_t number, mark, flags, bytes[6];
} nx584_zone_record;

/* number: 0, 11, or 8 for a partition that there is not. bytes: condition flags 1 to 4, last user,
 * condition flags 5 and 6. flags: the partition's byte of the partitions snapshot: bit 0 valid, 1 ready,
 * 2 armed, 3 stay mode, 4 chime mode, 5 any entry delay, 6 any exit delay, 7 previous alarm. */
typedef struct {
    uint8_t number, mark, flags, bytes[7];
} nx584_partition_record;

/* number: 0 or 11. mark: 1 when heard. bytes: bytes 2 to 12 of the system status. */
typedef struct {
    uint8_t number, mark, bytes[11];
} nx584_system_record;

/* A command that waits, or a free slot: one of length 0. message: the command, of so many bytes. sent:
 * how often it went out; ticks: how many have passed since. A host lends eight of them that are all
 * zero at first, and has no need to look into them: those with a length are the commands that wait. */
typedef struct {
    uint8_t length, sent, ticks;
    uint8_t message[NX584_LONGEST_COMMAND];
} nx584_slot;

/* number: 0 or the refusal. ended: how the front ended in this call, NX584_NOT_ENDED where it did not.
 * length and message: what goes out now, 0 and all zero where nothing does; zero beyond length. */
typedef struct {
    uint8_t number, ended, length;
    uint8_t message[NX584_LONGEST_COMMAND];
} nx584_sending;

/* number: 0 or the refusal. at and length: where a record stands in the log, and how many bytes it has,
 * its trailer included. length 0 with number 0 is none; at is 0 where length is 0. */
typedef struct {
    uint8_t number;
    size_t at, length;
} nx584_found;

/* number: 0 or the refusal. header, cells: how many bytes of each buffer are the grid's; 0 where it was
 * refused. */
typedef struct {
    uint8_t number;
    size_t header, cells;
} nx584_gridded;

/* What the archive was compiled for; a machine with other sizes stops here. */
typedef char nx584_has_size_t[sizeof(size_t) == 8 ? 1 : -1];
typedef char nx584_has_reader[sizeof(nx584_reader) == 266 ? 1 : -1];
typedef char nx584_has_reading[sizeof(nx584_reading) == 544 ? 1 : -1];
typedef char nx584_has_hearing[sizeof(nx584_hearing) == 544 ? 1 : -1];
typedef char nx584_has_written[sizeof(nx584_written) == 16 ? 1 : -1];
typedef char nx584_has_group[sizeof(nx584_group) == 16 ? 1 : -1];
typedef char nx584_has_overview[sizeof(nx584_overview) == 280 ? 1 : -1];
typedef char nx584_has_zone_record[sizeof(nx584_zone_record) == 9 ? 1 : -1];
typedef char nx584_has_partition_record[sizeof(nx584_partition_record) == 10 ? 1 : -1];
typedef char nx584_has_system_record[sizeof(nx584_system_record) == 13 ? 1 : -1];
typedef char nx584_has_slot[sizeof(nx584_slot) == 16 ? 1 : -1];
typedef char nx584_has_sending[sizeof(nx584_sending) == 16 ? 1 : -1];
typedef char nx584_has_found[sizeof(nx584_found) == 24 ? 1 : -1];
typedef char nx584_has_gridded[sizeof(nx584_gridded) == 24 ? 1 : -1];

/* ---- functions */

/* The NX584_VERSION that the archive was made with. */
uint32_t nx584_version(void);

/* A reader that has read nothing, with the strict rule of escapes. */
nx584_reader nx584_fresh(uint8_t framing);

/* The same with the old rule, for a line or a capture that escapes more than it needs to. */
nx584_reader nx584_fresh_lenient(uint8_t framing);

/* One byte: as nx584_read of that byte alone. */
nx584_reading nx584_step(nx584_reader reader, uint8_t byte);

/* Reads up to and including the first verdict's byte, or to the end. Hand what is unused to the next
 * read. On 12 (the reader is not sound) no byte is used and the reader comes back as it was. */
nx584_reading nx584_read(nx584_reader reader, const uint8_t *bytes, size_t bytes_len);

/* Puts the message's frame into out from place on. 4, 6, 7, 8, 9: nothing is written. */
nx584_written nx584_write(const uint8_t *message, size_t message_len, uint8_t framing, uint8_t *out,
                          size_t out_len, size_t place);

/* The number of the message with which a host answers a verdict, 0 none. type is the type byte that came
 * with it: with verdict 0, one that no good message has gets no reply. */
uint8_t nx584_reply(uint8_t verdict, uint8_t type);

/* Puts a message into a table. 0, or 11, 4, 6, 7, 8: the table stays as it was. */
uint8_t nx584_apply(uint8_t *table, size_t table_len, const uint8_t *message, size_t message_len);

/* The sixteen groups and the site of a table. 11: counts 0 and nothing known. */
nx584_overview nx584_view(const uint8_t *table, size_t table_len);

/* Records of a table, so that no host computes offsets: they stay when a later version lays the table
 * out in another way. zone: 0 for zone 1. partition: 0 for partition 1. Refused: all else is zero. */
nx584_zone_record nx584_zone(const uint8_t *table, size_t table_len, uint8_t zone);
nx584_partition_record nx584_partition(const uint8_t *table, size_t table_len, uint8_t partition);
nx584_system_record nx584_system(const uint8_t *table, size_t table_len);

/* Reads as nx584_read does, puts a good message into the table and says the reply. 11, 12: the reader
 * and the table stay as they were. */
nx584_hearing nx584_hear(nx584_reader reader, uint8_t *table, size_t table_len, const uint8_t *bytes,
                         size_t bytes_len);

/* ---- the line of commands
 *
 * Commands wait in eight slots that the host lends to each of these three calls: the oldest is in the
 * first slot, the front, and it alone is outstanding. It goes out when it becomes the front, again at
 * each sixth tick after it went out, and at once when a good 1Eh was told. It ends by a good 1Dh, 1Ch
 * or 1Fh, a 34h or 35h also by a good 12h; after four sendings the next 1Eh or sixth tick gives it up.
 * So a command with k ahead of it has ended after at most 24 (k + 1) ticks. Where it ends, the others
 * move up, the freed slot is all zero, and the next one goes out by the same call.
 *
 * Whatever a call answers with a length is to be written as a frame in the line's framing, by
 * nx584_write(a.message, a.length, ..), and sent at once; its flag is set. A call answers at most one
 * message and one end.
 *
 * slots_len counts slots and not bytes. Slots are sound when there are eight; the used ones, whose
 * length is not 0, stand first, and each holds a good one of the 14; the first, where it is used, was
 * sent 1 to 4 times with 0 to 5 ticks; and every other slot, a free first one too, has sent 0 and
 * ticks 0. All zero is sound, and every call leaves sound slots sound, so a host that lends them to
 * these calls alone never meets 22. A refused call leaves every slot as it was and answers ended 0 and
 * length 0. One line of commands belongs to one gateway: two threads lend it in turn and not at once. */

/* Takes a command to the end of the line, with its flag set. The 14 numbers: 29h, 2Bh, 2Ch, 31h, 34h to
 * 37h, 3Ah, 3Bh and 3Ch to 3Fh. Refusals in this order: 22, 4, 6, 7, 8, 13 (none of the 14), 14 (all
 * eight wait). Where nothing waited it goes out now. */
nx584_sending nx584_take(nx584_slot *slots, size_t slots_len, const uint8_t *message, size_t message_len);

/* To be called each half second, by the clock and not by what is heard; with nothing waiting it changes
 * nothing. Refusal: 22. */
nx584_sending nx584_tick(nx584_slot *slots, size_t slots_len);

/* To be called for every good message that was heard, nx584_hear's verdict 0, its flag set or not; those
 * that neither end nor repeat the front change nothing. Refusals in this order: 22, 4, 6, 7, 8. */
nx584_sending nx584_told(nx584_slot *slots, size_t slots_len, const uint8_t *message, size_t message_len);

/* ---- the station log
 *
 * What a unit heard, in memory that it lends: good messages of numbers 04h to 08h, each followed by one
 * byte that holds its length, the trailer. So a record of 04h is 9 bytes, of 05h 11, of 06h and 07h 10, of
 * 08h 13. They stand one after another from the beginning of the buffer, the oldest first, and `used` says
 * how many of the buffer's bytes they are: 0 is an empty log, whatever the buffer holds. What stands beyond
 * is never read. A buffer may be of any length; at most NX584_LOG_MOST bytes of it are used.
 *
 * A log is sound when walking back by the trailers from its end lands on its beginning, and every record
 * there is a good message of numbers 04h to 08h. An empty log is sound, and nx584_keep and nx584_make_room
 * leave a sound log sound, so a host that changes its log by these two alone never meets 17. All three calls
 * look at the whole log: what they take grows with `used`, some tens of microseconds for a full one. Two
 * threads lend a log in turn where one of them keeps or makes room. */

/* Keeps a message, with its flag as it came: the record is put at log[used], and every other byte stays.
 * Refusals in this order: 16 (used is beyond the buffer or above NX584_LOG_MOST), 17 (the log is not
 * sound), 4, 6, 7, 8 (the message's own), 18 (a number that is not kept), 9 (no room for the record in the
 * buffer, or within NX584_LOG_MOST); then no byte changes. The answer's length is what was added, 0 where
 * it was refused, so that used += length is right after every call. */
nx584_written nx584_keep(uint8_t *log, size_t log_len, size_t used, const uint8_t *message,
                         size_t message_len);

/* The newest record about a zone, 0 for zone 1: the last 04h of that zone or 05h that covers it, whose
 * message is log[at] to log[at + length - 2]. length 0 with number 0: the log has none. Refusals in this
 * order: 16, 17. */
nx584_found nx584_newest(const uint8_t *log, size_t log_len, size_t used, uint8_t zone);

/* Makes a log smaller where it stands. A record goes exactly if every byte of a table that it writes, and
 * every mark bit that it sets, is written or set by later records together: an 04h if a later 04h is of its
 * zone, an 05h if each of its 16 zones has a later 04h or a later 05h that covers it, an 06h if a later one is
 * of its partition, an 07h or an 08h if there is a later one. The others stand at the beginning of the buffer
 * in their order, and every byte beyond them stays as it was. A table that the log is applied to, oldest
 * first, becomes what it would have become before, and nx584_newest gives the same bytes for every zone.
 * Refusals in this order: 16, 17; then no byte changes. The answer's length is what was won, 0 where it was
 * refused, so that used -= length is right after every call; a second call wins 0. At most 5,223 bytes stay,
 * and the longest record has 13: a buffer of NX584_LOG_ENOUGH bytes or more is never full after this call. */
nx584_written nx584_make_room(uint8_t *log, size_t log_len, size_t used);

/* ---- zone maps as float grids
 *
 * The 256 zones lie as a map of 16 rows of 16: zone 1 at top left, zone 16 at top right, zone 17 below zone 1,
 * zone 256 at bottom right. The map has five levels, 16, 8, 4, 2 and 1 cells wide and as many high; a cell of
 * the level w cells wide is a block of 16 / w by 16 / w zones, so that a cell of the widest is a zone. Each
 * level is an Esri float grid, which map programs read: a text header for a file .hdr, and the cells for a file
 * .flt beside it, top row first, each row from left to right, each cell a little-endian float of 4 bytes.
 *
 * A cell is the share of its block's heard zones that are faulted, faulted / heard, rounded once to a float:
 * 0 exactly when none is faulted, 1 exactly when all heard are, else between. A block with no heard zone has the
 * header's NODATA_value, minus 9999, in bytes 00 3C 1C C6; no share has those bytes, and no zone that was not
 * heard counts in one. */

/* Puts the header of the level `width` cells wide at the beginning of one buffer and its cells at the beginning
 * of the other, 4 * width * width bytes; every byte beyond stays. Refusals in this order: 11, 8 (width is none
 * of 16, 8, 4, 2, 1), 9 (the header or the cells do not fit); then no byte of either buffer changes and both
 * lengths are 0. NX584_GRID_HEADER_MOST and NX584_GRID_CELLS_MOST bytes are room for every level. */
nx584_gridded nx584_grid(const uint8_t *table, size_t table_len, uint8_t width, uint8_t *header,
                         size_t header_len, uint8_t *cells, size_t cells_len);

#ifdef __cplusplus
}
#endif

#endif
