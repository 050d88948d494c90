/* kakoludar.h: the interface of libkakoludar, the proved engine of a practice exchange: one commodity futures contract, one day.
 *
 * Prices are whole paise, quantities lots, times milliseconds from the open. docs/LINES.md has every line, refusal and formula.
 *
 * The calls in the order of a day:
 *   kakoludar_version, kakoludar_layout
 *                           which library this is, and which stored numbers are its own
 *   kakoludar_open          settings in, a session out
 *   kakoludar_apply         one event: an order, a cancel, a price of the underlying, time that passes, the close
 *   kakoludar_view          the orders that rest on a side, best first
 *   kakoludar_standing      the band, the range and the rest of what an app shows of a day
 *   kakoludar_sound         whether numbers are a session and its live orders
 *   kakoludar_resume, kakoludar_resume_lent
 *                           the saved lines of a day in, its session and tables out: come back after the app was killed
 *   kakoludar_read_..       one line of text as settings or an event
 *   kakoludar_write_..      settings, an event or a report as a line of text
 *   kakoludar_start, kakoludar_feed, kakoludar_end
 *                           a whole day as text, in pieces, however they are cut
 *
 * What holds for every function:
 *  - It is total. Any numbers, any bytes and any lengths may be handed in: what is no session, event or line is refused by its
 *    number and never harms. Only the pointers must be good: each names as many readable (or writable) elements as its length
 *    says, and is not NULL, not even where the length is 0.
 *  - It is determined: the same numbers in give the same numbers out, on every machine.
 *  - Slices that it writes must overlap no other slice of the same call.
 *  - It never allocates, reads no clock, has no globals, keeps no pointer, does not recurse (some 12 KiB of stack are enough for
 *    every call but kakoludar_resume, which asks for some 52 KiB) and needs nothing but memcpy and memset. Calls on memory that
 *    does not overlap may run in any threads at once.
 *  - The caller keeps all state: the session's numbers and both tables. They may be copied, stored and taken up again: all three
 *    of one moment, or not at all. Numbers of two moments (a session stored after a call, tables stored before it) can pass for
 *    sound; then orders that have traded stand in the book again, and no call can tell. Where an app may be killed between two
 *    writes, the day's lines are what it saves, and kakoludar_resume takes them: docs/LINES.md, "Save and come back".
 */
#ifndef KAKOLUDAR_H
#define KAKOLUDAR_H

#include <stddef.h>
#include <stdint.h>

#ifdef __cplusplus
extern "C" {
#endif

/* ---- Version
 *
 * KAKOLUDAR_VERSION is 1,000,000 * major + 1,000 * minor + patch: this header is of 0.3.0. KAKOLUDAR_LAYOUT marks the layout of
 * the numbers that an app may store, session, run and tables. It is number 0 of every session: numbers with another in that
 * place, stored by another version, are no session's (2; a run: over). Layouts are counted from 101, since before they were
 * marked a category, 0 to 7, stood in that place. */
#define KAKOLUDAR_VERSION 3000
#define KAKOLUDAR_LAYOUT 101

/* The version of the library that is linked. Where it is not KAKOLUDAR_VERSION, this header is of another one.
 *   Answers  the version (no code and no count).
 *   Writes   nothing. */
uint64_t kakoludar_version(void);

/* The layout of the library that is linked.
 *   Answers  the layout (no code and no count).
 *   Writes   nothing. */
uint64_t kakoludar_layout(void);

/* ---- Answers
 *
 * An answer is code + 256 * count. The code is 0 where the call was done, else the number of a refusal. The count is said at
 * each function; beside a refusal it is 0, but for KAKOLUDAR_REFUSED_WRONG_LINE of a reader, where it is the place. */

/* The code of an answer: enum kakoludar_refused. */
static inline unsigned kakoludar_code(uint64_t answer) { return (unsigned)(answer % 256u); }

/* The count of an answer. */
static inline size_t kakoludar_count(uint64_t answer) { return (size_t)(answer / 256u); }

enum kakoludar_refused {
    KAKOLUDAR_REFUSED_NOT = 0,             /* the call was done */
    KAKOLUDAR_REFUSED_SHORT_TABLE = 1,     /* a table under 768 numbers, the report room under 3,120, or a run under its length */
    KAKOLUDAR_REFUSED_UNSOUND = 2,         /* the numbers are no sound session with its live orders */
    KAKOLUDAR_REFUSED_CLOSED = 3,          /* the session is closed already */
    KAKOLUDAR_REFUSED_EVENT_RANGE = 4,     /* a number of the event is out of its range, or the numbers are no event's */
    KAKOLUDAR_REFUSED_EARLY = 5,           /* time below that of the last accepted event */
    KAKOLUDAR_REFUSED_LENGTH = 6,          /* a close before the length of the day, or anything else at or after it */
    KAKOLUDAR_REFUSED_EVENT_TICK = 7,      /* limit or settlement not a multiple of the tick */
    KAKOLUDAR_REFUSED_BAND = 8,            /* limit outside the band */
    KAKOLUDAR_REFUSED_NO_SUCH_ORDER = 9,   /* a cancel of an order that does not rest */
    KAKOLUDAR_REFUSED_SIDE_FULL = 10,      /* a day order whose own side holds 256 */
    KAKOLUDAR_REFUSED_DAY_FULL = 11,       /* an order, after 60,000 orders or more than 59,744 trades */
    KAKOLUDAR_REFUSED_SETTINGS_RANGE = 12, /* a number of the settings is out of its range */
    KAKOLUDAR_REFUSED_SETTINGS_TICK = 13,  /* base, close or settlement not a multiple of the tick */
    KAKOLUDAR_REFUSED_UNFINISHED = 14,     /* the bytes begin a line and hold no whole one */
    KAKOLUDAR_REFUSED_WRONG_LINE = 15,     /* the bytes begin no line of the sort that is due; count or place[0] is the place */
    KAKOLUDAR_REFUSED_SHORT_LINE = 16,     /* line room under 128 bytes */
    KAKOLUDAR_REFUSED_LARGE_NUMBER = 17,   /* a number above 999,999,999 is to be written */
    KAKOLUDAR_REFUSED_SAVED_LINE = 22      /* a saved line that the engine refuses; place[0] is its start */
};

/* ---- Sizes
 *
 * Each run of numbers is a slice of uint64_t at least so long; what lies past these lengths is never touched. */

#define KAKOLUDAR_SIZE_SETTINGS 8  /* enum kakoludar_setting */
#define KAKOLUDAR_SIZE_SESSION 44  /* enum kakoludar_session */
#define KAKOLUDAR_SIZE_EVENT 6     /* enum kakoludar_event */
#define KAKOLUDAR_SIZE_RECORD 6    /* enum kakoludar_record */
#define KAKOLUDAR_SIZE_ORDER 3     /* enum kakoludar_order */
#define KAKOLUDAR_SIZE_TABLE 768   /* a side: 256 orders, best first */
#define KAKOLUDAR_SIZE_ROOM 3120   /* the report room: 520 records */
#define KAKOLUDAR_SIZE_RUN 45      /* where text in and text out stands: its stage, then the session's numbers */
#define KAKOLUDAR_SIZE_STANDING 14 /* enum kakoludar_standing_at */
#define KAKOLUDAR_SIZE_COUNTS 2    /* of a feed: the bytes taken, the bytes printed */
#define KAKOLUDAR_SIZE_PLACE 1     /* of a resume: the bytes that count, or the place of the first bad line */
#define KAKOLUDAR_SIZE_LINE 128    /* bytes that a writer asks for */
#define KAKOLUDAR_SIZE_TEXT 66560  /* bytes of output room with which a feed always makes progress: 520 lines of 128 */

/* ---- What each number of a run is */

/* Settings. Base, close and settlement are multiples of the tick. */
enum kakoludar_setting {
    KAKOLUDAR_SETTING_CATEGORY = 0, /* enum kakoludar_category */
    KAKOLUDAR_SETTING_BASE = 1,     /* base price: 1 to 50,000,000 */
    KAKOLUDAR_SETTING_CLOSE = 2,    /* previous close: 1 to 100,000,000 */
    KAKOLUDAR_SETTING_SETTLE = 3,   /* previous settlement: 1 to 100,000,000 */
    KAKOLUDAR_SETTING_TICK = 4,     /* 1 to 10,000 */
    KAKOLUDAR_SETTING_LENGTH = 5,   /* length of the day in milliseconds: 3,600,000 to 86,400,000 */
    KAKOLUDAR_SETTING_DAYS = 6,     /* days to maturity: 0 to 366 */
    KAKOLUDAR_SETTING_UNDER = 7     /* price of the underlying: 0 (none known) to 100,000,000 */
};

enum kakoludar_category {
    KAKOLUDAR_CATEGORY_BROAD = 0,
    KAKOLUDAR_CATEGORY_NARROW = 1,
    KAKOLUDAR_CATEGORY_SENSITIVE = 2,
    KAKOLUDAR_CATEGORY_ENERGY = 3,
    KAKOLUDAR_CATEGORY_METALS = 4,
    KAKOLUDAR_CATEGORY_PRECIOUS = 5,
    KAKOLUDAR_CATEGORY_GEMS = 6,
    KAKOLUDAR_CATEGORY_OTHER = 7
};

/* A session, in groups: its layout, its settings, its clock with the underlying, its live counts, what the reference is reckoned
 * from, its trades. An app reads these numbers; it has no need to write them. */
enum kakoludar_session {
    KAKOLUDAR_SESSION_LAYOUT = 0,        /* KAKOLUDAR_LAYOUT */
    KAKOLUDAR_SESSION_SETTINGS = 1,      /* 1 to 8: the settings */
    KAKOLUDAR_SESSION_TIME = 9,          /* of the last accepted event */
    KAKOLUDAR_SESSION_CLOSED = 10,       /* 0 or 1 */
    KAKOLUDAR_SESSION_WIDENED = 11,      /* how often the band was widened: 0 or 1 */
    KAKOLUDAR_SESSION_COOLING = 12,      /* when the cooling-off ends; 0: none runs */
    KAKOLUDAR_SESSION_UNDER = 13,        /* the underlying now; 0: none known */
    KAKOLUDAR_SESSION_BUYS = 14,         /* live orders of the buy table */
    KAKOLUDAR_SESSION_SELLS = 15,        /* live orders of the sell table */
    KAKOLUDAR_SESSION_GIVEN = 16,        /* order numbers given */
    KAKOLUDAR_SESSION_REFERENCE = 17,    /* the reference price */
    KAKOLUDAR_SESSION_MINUTE_COUNT = 18, /* the running minute's trades */
    KAKOLUDAR_SESSION_MINUTE_SUM = 19,   /* the sum of their prices */
    KAKOLUDAR_SESSION_TRADES = 20,       /* trades made */
    KAKOLUDAR_SESSION_PRICES = 21,       /* 21 to 30: prices of the last ten trades, oldest first */
    KAKOLUDAR_SESSION_SIZES = 31,        /* 31 to 40: their lots */
    KAKOLUDAR_SESSION_HALF_COUNT = 41,   /* trades of the closing half hour */
    KAKOLUDAR_SESSION_HALF_LOTS = 42,    /* their lots */
    KAKOLUDAR_SESSION_HALF_VALUE = 43    /* the sum of price times lots */
};

/* An order in a side's table. */
enum kakoludar_order {
    KAKOLUDAR_ORDER_ID = 0,    /* its number, given by its accept report */
    KAKOLUDAR_ORDER_PRICE = 1, /* its limit */
    KAKOLUDAR_ORDER_LOTS = 2   /* lots that are left */
};

enum kakoludar_side { KAKOLUDAR_SIDE_BUY = 1, KAKOLUDAR_SIDE_SELL = 2 };

/* An event. Numbers that an event has no use for are 0.
 *   order   { t, DO_BUY or DO_SELL, KIND_.., LIFE_.., lots, limit price (market: 0) }
 *   cancel  { t, DO_CANCEL, 0, 0, order number, 0 }
 *   under   { t, DO_UNDER, 0, 0, 0, underlying }
 *   clock   { t, DO_CLOCK, 0, 0, 0, 0 }
 *   close   { t, DO_CLOSE, 0, 0, 0, settlement } */
enum kakoludar_event {
    KAKOLUDAR_EVENT_TIME = 0,
    KAKOLUDAR_EVENT_DO = 1,
    KAKOLUDAR_EVENT_KIND = 2,
    KAKOLUDAR_EVENT_LIFE = 3,
    KAKOLUDAR_EVENT_AMOUNT = 4, /* lots, or the number of the order to cancel */
    KAKOLUDAR_EVENT_PRICE = 5   /* limit, underlying or settlement */
};
enum kakoludar_do {
    KAKOLUDAR_DO_BUY = 1,
    KAKOLUDAR_DO_SELL = 2,
    KAKOLUDAR_DO_CANCEL = 3,
    KAKOLUDAR_DO_UNDER = 4,
    KAKOLUDAR_DO_CLOCK = 5,
    KAKOLUDAR_DO_CLOSE = 6
};
enum kakoludar_kind { KAKOLUDAR_KIND_LIMIT = 1, KAKOLUDAR_KIND_MARKET = 2 };
enum kakoludar_life { KAKOLUDAR_LIFE_DAY = 1, KAKOLUDAR_LIFE_IOC = 2 };

/* A report is a record: its kind, its time, then its fields, then zeros.
 *   accept   { SAID_ACCEPT, t, order number }
 *   trade    { SAID_TRADE, t, buy order, sell order, lots, price }
 *   convert  { SAID_CONVERT, t, order number, lots, price }     a market order's rest, now a limit order
 *   cancel   { SAID_CANCEL, t, order number, lots, WHY_.. }
 *   slab     { SAID_SLAB, t, low, high }                        the band after it was widened
 *   ref      { SAID_REF, t, price }                             the new reference
 *   close    { SAID_CLOSE, t, close price, next base } */
enum kakoludar_record {
    KAKOLUDAR_RECORD_KIND = 0,  /* enum kakoludar_said */
    KAKOLUDAR_RECORD_TIME = 1,  /* of the event */
    KAKOLUDAR_RECORD_FIELDS = 2 /* 2 to 5 */
};
enum kakoludar_said {
    KAKOLUDAR_SAID_ACCEPT = 1,
    KAKOLUDAR_SAID_TRADE = 2,
    KAKOLUDAR_SAID_CONVERT = 3,
    KAKOLUDAR_SAID_CANCEL = 4,
    KAKOLUDAR_SAID_SLAB = 5,
    KAKOLUDAR_SAID_REF = 6,
    KAKOLUDAR_SAID_CLOSE = 7
};
enum kakoludar_why {
    KAKOLUDAR_WHY_ASKED = 1, /* by a cancel */
    KAKOLUDAR_WHY_IOC = 2,   /* the rest of an ioc order */
    KAKOLUDAR_WHY_RANGE = 3, /* the best counter order is out of range */
    KAKOLUDAR_WHY_BAND = 4,  /* it would rest outside the band */
    KAKOLUDAR_WHY_END = 5    /* the close */
};

/* Where a day stands: what an app shows of it. */
enum kakoludar_standing_at {
    KAKOLUDAR_STANDING_PERCENT = 0,     /* the percent in force */
    KAKOLUDAR_STANDING_BAND_LOW = 1,    /* a limit below it is refused by 8 */
    KAKOLUDAR_STANDING_BAND_HIGH = 2,   /* a limit above it is refused by 8 */
    KAKOLUDAR_STANDING_RANGE_LOW = 3,   /* in whole paise, on the tick or not: a price is in range just where it lies */
    KAKOLUDAR_STANDING_RANGE_HIGH = 4,  /* between these two, both included */
    KAKOLUDAR_STANDING_REFERENCE = 5,   /* the reference price */
    KAKOLUDAR_STANDING_COOLING = 6,     /* 1 where a cooling-off runs, else 0 */
    KAKOLUDAR_STANDING_COOLING_END = 7, /* its end; 0 where none runs */
    KAKOLUDAR_STANDING_LAST_PRICE = 8,  /* of the last trade; 0 where there was none */
    KAKOLUDAR_STANDING_LAST_LOTS = 9,   /* its lots; 0 where there was none */
    KAKOLUDAR_STANDING_BUYS = 10,       /* live orders of the buy table */
    KAKOLUDAR_STANDING_SELLS = 11,      /* live orders of the sell table */
    KAKOLUDAR_STANDING_GIVEN = 12,      /* order numbers given */
    KAKOLUDAR_STANDING_TRADES = 13      /* trades made */
};

/* ---- The session */

/* Opens a day.
 *   Answers  0; 1 for a short run; 12 or 13 for settings that are refused.
 *   Writes   the session's numbers; on 12 and 13 the layout and zeros, which are no sound session; on 1 nothing.
 *   Never    touches a table: what stands in the tables before the first event does not matter. */
uint64_t kakoludar_open(const uint64_t *settings, size_t settings_len, uint64_t *session, size_t session_len);

/* Applies one event.
 *   Answers  0 with the count of reports, at most 520; else 1 to 11, the first that applies: 2 too for numbers that are no
 *            session's (another layout, category above 7, closed above 1), 4 too for numbers that are no event's.
 *   Writes   the session and both tables as they are after the event (the tables' numbers past the live orders are 0 up to 768)
 *            and the reports, from the start of the room, in their order.
 *   Never    writes anything where it refuses: not the time, not the band, no order number is used. */
uint64_t kakoludar_apply(uint64_t *session, size_t session_len, const uint64_t *event, size_t event_len, uint64_t *buys,
                         size_t buys_len, uint64_t *sells, size_t sells_len, uint64_t *room, size_t room_len);

/* Whether numbers are a session with its live orders: what kakoludar_apply asks before anything else.
 *   Answers  1 where they are sound, else 0 (no code and no count); 0 too for a short run or table.
 *   Writes   nothing.
 *   Never    tells numbers of two moments: these can be sound together. */
uint64_t kakoludar_sound(const uint64_t *session, size_t session_len, const uint64_t *buys, size_t buys_len,
                         const uint64_t *sells, size_t sells_len);

/* The orders that rest on a side (enum kakoludar_side).
 *   Answers  how many numbers of that side's table are live, from its start: three to an order, best first (no code and no
 *            count). 0 for another side, an unsound session, a short run or table.
 *   Writes   nothing. */
uint64_t kakoludar_view(uint64_t side, const uint64_t *session, size_t session_len, const uint64_t *buys, size_t buys_len,
                        const uint64_t *sells, size_t sells_len);

/* Where a day stands (enum kakoludar_standing_at), by the same definitions that judge orders.
 *   Answers  0; 1 for a short table or run, a standing under 14 numbers too; 2 for numbers that are not sound or no session's.
 *   Writes   the standing's 14 numbers; where it refuses nothing.
 *   Never    steps the clock: it is of the session as it is after its last accepted event. What the time of the next event brings,
 *            a wider band or a new reference, is not in it; apply a clock event first to see it. A closed session answers too. */
uint64_t kakoludar_standing(const uint64_t *session, size_t session_len, const uint64_t *buys, size_t buys_len,
                            const uint64_t *sells, size_t sells_len, uint64_t *standing, size_t standing_len);

/* ---- Saved lines
 *
 * What an app saves of a day: the settings line, then the line of each accepted event, each before its reports are shown. A kill
 * cuts these bytes after any byte. Both calls rebuild the day of the whole lines, as if it had never stopped, and say how many
 * bytes count; cut the file back to them before a line is appended. To go on as text, a run of it is KAKOLUDAR_STAGE_TRADING and
 * then the session's numbers. */

/* Comes back: the session and the tables of the settings line and all whole event lines. A tail that begins an event line is
 * dropped, whatever the engine would say of it.
 *   Answers  0; 1 for a session under 44 numbers, a place under 1 or a table under 768; then by the first bad line, whatever
 *            follows it: 14 where the bytes begin a settings line and hold no whole one (no bytes, too), 15 for a line that is
 *            none, a tail that begins none too, 22 for a line that the engine refuses, settings included. The count is 0.
 *   Writes   place[0]: with 0 how many bytes count, those of the whole lines; with 15 the place, counted from the first saved
 *            byte; with 22 the line's start; with 14 and 1 it is 0.
 *            The session: with 0 as it is after the last whole event, its clock too; where it refuses the layout and zeros, as
 *            kakoludar_open writes them on 12.
 *            The tables: with 0, once there is an event, as kakoludar_apply leaves them after the last (the numbers past the live
 *            orders are 0 up to 768).
 *            Nothing at all where the session or the place is too short.
 *   Never    writes a report: those of the saved events count as handed out. Never touches a table where it refuses, or where the
 *            bytes hold no event, as an opening touches none. Its scratch, two tables and a report room, is on the stack: 37,248
 *            bytes of the 52 KiB or so that it asks for. (The larger tables and room of later requests make it 82,688.) */
uint64_t kakoludar_resume(const uint8_t *saved, size_t saved_len, uint64_t *session, size_t session_len, uint64_t *buys,
                          size_t buys_len, uint64_t *sells, size_t sells_len, uint64_t *place, size_t place_len);

/* The same with its scratch lent, for a thread with a small stack: two spare tables and a report room.
 *   Answers  as kakoludar_resume; 1 too for a spare table under 768 numbers or a room under 3,120.
 *   Writes   as kakoludar_resume; after any answer but 1 the first 768, 768 and 3,120 numbers of the scratch are 0.
 *   Never    touches the scratch where it answers 1. What stands in it before the call does not matter. */
uint64_t kakoludar_resume_lent(const uint8_t *saved, size_t saved_len, uint64_t *session, size_t session_len, uint64_t *buys,
                               size_t buys_len, uint64_t *sells, size_t sells_len, uint64_t *place, size_t place_len,
                               uint64_t *spare_buys, size_t spare_buys_len, uint64_t *spare_sells, size_t spare_sells_len,
                               uint64_t *room, size_t room_len);

/* ---- Lines
 *
 * A line ends with one newline byte and with no zero byte. */

/* Reads one line from the start of the bytes: settings, or an event.
 *   Answers  0 with how many bytes the line has, its newline included; 1 for a short run; 14 where the bytes begin such a line
 *            and hold no whole one; 15 with the place, the length of the longest start that begins such a line.
 *   Writes   the numbers of the line; where it refuses nothing.
 *   Never    looks past the line's newline, and judges no range: qty=0 is read, and refused when it is applied. */
uint64_t kakoludar_read_settings(const uint8_t *line, size_t line_len, uint64_t *settings, size_t settings_len);
uint64_t kakoludar_read_event(const uint8_t *line, size_t line_len, uint64_t *event, size_t event_len);

/* Writes one line: settings, an event, or a report.
 *   Answers  0 with the line's length; 1 for a short run; 12 for numbers that are no settings', 4 for numbers that are no
 *            event's; 16; 17. Numbers that are no report's have no line: 0 with the length 0.
 *   Writes   the line, at the start of the line room; where it refuses nothing.
 *   Never    touches the bytes past the line, and judges no range. */
uint64_t kakoludar_write_settings(const uint64_t *settings, size_t settings_len, uint8_t *line, size_t line_len);
uint64_t kakoludar_write_event(const uint64_t *event, size_t event_len, uint8_t *line, size_t line_len);
uint64_t kakoludar_write_report(const uint64_t *record, size_t record_len, uint8_t *line, size_t line_len);

/* ---- Text in and text out
 *
 * What the program `session` does, with the bytes in the caller's hands. Settings first, then events; each line's reports or its
 * refusal are printed. A bad line and refused settings are printed too, and end the run.
 *
 *   kakoludar_start, once;
 *   kakoludar_feed on a piece of the input, however it is cut; send out the bytes printed; hand the bytes that were not taken in
 *     again, with more of the input behind them (they are at most 128, but after KAKOLUDAR_STOP_FULL);
 *   kakoludar_end on the bytes that are left when the input has ended, until it answers KAKOLUDAR_STOP_ENDED.
 *
 * What is printed in all is the same however the input is cut and however large the output room is. */

/* The first number of a run; behind it, from number 1 on, stands the session, once the settings are taken. */
enum kakoludar_stage { KAKOLUDAR_STAGE_AWAITING = 0, KAKOLUDAR_STAGE_TRADING = 1, KAKOLUDAR_STAGE_OVER = 2 };

/* Why no further line was taken: the count of an answer. */
enum kakoludar_stop {
    KAKOLUDAR_STOP_WAITS = 0, /* the bytes left hold no whole line */
    KAKOLUDAR_STOP_FULL = 1,  /* the output room is to be emptied; then hand in the bytes that are left */
    KAKOLUDAR_STOP_ENDED = 2  /* the run is over: no further byte is taken, and nothing is printed any more */
};

/* Begins a run of text.
 *   Answers  0; 1 for a short run.
 *   Writes   the run as it is before its first line; on 1 nothing.
 *   Never    touches a table: they need no preparation. */
uint64_t kakoludar_start(uint64_t *run, size_t run_len);

/* Takes the whole lines of the bytes, while there is room for whatever the next can print.
 *   Answers  0 with why it took no more (enum kakoludar_stop); 1 for a short run, table or report room, or under two counts.
 *   Writes   the run, the tables and the report room as they are after these lines; counts[0], how many bytes it took;
 *            counts[1], how many it printed, from the start of the output room; where it refuses nothing.
 *   Never    refuses an output room: where what the next line prints may not fit, the answer is KAKOLUDAR_STOP_FULL. A settings
 *            line asks for KAKOLUDAR_SIZE_LINE bytes of room, an event line for KAKOLUDAR_SIZE_TEXT: a room of 66,560 bytes
 *            always makes progress, a shorter one takes no event. Never touches the output room past what it printed.
 * Numbers that are no run's (stage above 2, or no session) are taken for a run that is over. */
uint64_t kakoludar_feed(uint64_t *run, size_t run_len, const uint8_t *bytes, size_t bytes_len, uint64_t *buys, size_t buys_len,
                        uint64_t *sells, size_t sells_len, uint64_t *room, size_t room_len, uint8_t *out, size_t out_len,
                        uint64_t *counts, size_t counts_len);

/* Takes the last bytes of the input: whole lines among them as by kakoludar_feed; where none is left it tells the end, by a bad
 * line (14) where the bytes left begin a line, or where there were no settings. Then the run is over.
 *   Answers  as kakoludar_feed: KAKOLUDAR_STOP_ENDED, or KAKOLUDAR_STOP_FULL where the room is to be emptied first (then call it
 *            again with the bytes that are left).
 *   Writes   as kakoludar_feed.
 *   Never    presumes an earlier feed: bytes that begin no line are answered as a feed would (15 with the place). */
uint64_t kakoludar_end(uint64_t *run, size_t run_len, const uint8_t *bytes, size_t bytes_len, uint64_t *buys, size_t buys_len,
                       uint64_t *sells, size_t sells_len, uint64_t *room, size_t room_len, uint8_t *out, size_t out_len,
                       uint64_t *counts, size_t counts_len);

#ifdef __cplusplus
}
#endif

#endif
