/* Plays document 01's listing through the library, prints the report lines and compares them with the paper's. Then it comes back from
 * the day's lines, as if it had been killed before the last of them was saved whole. */
#include "kakoludar.h"

#include <inttypes.h>
#include <stdio.h>
#include <string.h>

static const char INPUT[] =
    "cat=gems base=10000 close=10000 settle=10000 tick=5 len=3600000 days=0 under=0\n"
    "t=0 do=sell kind=limit life=day qty=4 price=10150\n"
    "t=1000 do=buy kind=limit life=day qty=1 price=10300\n"
    "t=60000 do=sell kind=limit life=day qty=2 price=10300\n"
    "t=61000 do=buy kind=market life=day qty=6\n"
    "t=961000 do=cancel id=4\n"
    "t=3600000 do=close settle=10200\n";

static const char EXPECTED[] =
    "t=0 say=accept id=1\n"
    "t=1000 say=accept id=2\n"
    "t=1000 say=trade buy=2 sell=1 qty=1 price=10150\n"
    "t=60000 say=ref price=10150\n"
    "t=60000 say=accept id=3\n"
    "t=61000 say=accept id=4\n"
    "t=61000 say=trade buy=4 sell=1 qty=3 price=10150\n"
    "t=61000 say=trade buy=4 sell=3 qty=2 price=10300\n"
    "t=61000 say=convert id=4 qty=1 price=10300\n"
    "t=961000 say=slab low=9400 high=10600\n"
    "t=961000 say=ref price=10225\n"
    "t=961000 say=cancel id=4 qty=1 why=1\n"
    "t=3600000 say=close price=10300 base=10200\n";

/* All that a day needs; the library has no memory of its own. */
static uint64_t session[KAKOLUDAR_SIZE_SESSION], buys[KAKOLUDAR_SIZE_TABLE], sells[KAKOLUDAR_SIZE_TABLE], room[KAKOLUDAR_SIZE_ROOM];

static int refused(const char *what, uint64_t answer) {
    fprintf(stderr, "%s: refused by %u, at %zu\n", what, kakoludar_code(answer), kakoludar_count(answer));
    return 1;
}

/* What an app shows beside the book, to standard error. */
static int show(void) {
    uint64_t now[KAKOLUDAR_SIZE_STANDING];
    uint64_t answer = kakoludar_standing(session, KAKOLUDAR_SIZE_SESSION, buys, KAKOLUDAR_SIZE_TABLE, sells,
                                         KAKOLUDAR_SIZE_TABLE, now, KAKOLUDAR_SIZE_STANDING);
    if (kakoludar_code(answer)) return refused("standing", answer);
    fprintf(stderr, "band %" PRIu64 " to %" PRIu64 ", range %" PRIu64 " to %" PRIu64 "\n", now[KAKOLUDAR_STANDING_BAND_LOW],
            now[KAKOLUDAR_STANDING_BAND_HIGH], now[KAKOLUDAR_STANDING_RANGE_LOW], now[KAKOLUDAR_STANDING_RANGE_HIGH]);
    return 0;
}

/* Comes back from the lines but for their last byte, by both calls: the cancel before the close was the last whole event. */
static int come_back(void) {
    static uint64_t spare_buys[KAKOLUDAR_SIZE_TABLE], spare_sells[KAKOLUDAR_SIZE_TABLE];
    const uint8_t *saved = (const uint8_t *)INPUT;
    size_t length = sizeof INPUT - 2;
    size_t whole = (size_t)(strstr(INPUT, "t=3600000") - INPUT);
    for (int lent = 0; lent < 2; lent++) {
        uint64_t place[KAKOLUDAR_SIZE_PLACE];
        uint64_t answer =
            lent ? kakoludar_resume_lent(saved, length, session, KAKOLUDAR_SIZE_SESSION, buys, KAKOLUDAR_SIZE_TABLE, sells,
                                         KAKOLUDAR_SIZE_TABLE, place, KAKOLUDAR_SIZE_PLACE, spare_buys, KAKOLUDAR_SIZE_TABLE,
                                         spare_sells, KAKOLUDAR_SIZE_TABLE, room, KAKOLUDAR_SIZE_ROOM)
                 : kakoludar_resume(saved, length, session, KAKOLUDAR_SIZE_SESSION, buys, KAKOLUDAR_SIZE_TABLE, sells,
                                    KAKOLUDAR_SIZE_TABLE, place, KAKOLUDAR_SIZE_PLACE);
        if (kakoludar_code(answer)) return refused("resume", answer);
        if (place[0] != whole || session[KAKOLUDAR_SESSION_TIME] != 961000 || session[KAKOLUDAR_SESSION_CLOSED]) {
            fprintf(stderr, "another day came back\n");
            return 1;
        }
    }
    return 0;
}

int main(void) {
    const uint8_t *bytes = (const uint8_t *)INPUT;
    size_t left = sizeof INPUT - 1;
    char output[1024];
    size_t written = 0;
    uint64_t settings[KAKOLUDAR_SIZE_SETTINGS], event[KAKOLUDAR_SIZE_EVENT], answer;

    if (kakoludar_version() != KAKOLUDAR_VERSION) {
        fprintf(stderr, "the library is of another version than its header\n");
        return 1;
    }
    answer = kakoludar_read_settings(bytes, left, settings, KAKOLUDAR_SIZE_SETTINGS);
    if (kakoludar_code(answer)) return refused("settings line", answer);
    bytes += kakoludar_count(answer);
    left -= kakoludar_count(answer);
    answer = kakoludar_open(settings, KAKOLUDAR_SIZE_SETTINGS, session, KAKOLUDAR_SIZE_SESSION);
    if (kakoludar_code(answer)) return refused("opening", answer);
    if (show()) return 1;

    while (left > 0) {
        answer = kakoludar_read_event(bytes, left, event, KAKOLUDAR_SIZE_EVENT);
        if (kakoludar_code(answer)) return refused("event line", answer);
        bytes += kakoludar_count(answer);
        left -= kakoludar_count(answer);

        answer = kakoludar_apply(session, KAKOLUDAR_SIZE_SESSION, event, KAKOLUDAR_SIZE_EVENT, buys, KAKOLUDAR_SIZE_TABLE, sells,
                                 KAKOLUDAR_SIZE_TABLE, room, KAKOLUDAR_SIZE_ROOM);
        if (kakoludar_code(answer)) return refused("event", answer);
        size_t count = kakoludar_count(answer);
        for (size_t i = 0; i < count; i++) {
            uint8_t line[KAKOLUDAR_SIZE_LINE];
            answer = kakoludar_write_report(room + KAKOLUDAR_SIZE_RECORD * i, KAKOLUDAR_SIZE_RECORD, line, sizeof line);
            if (kakoludar_code(answer)) return refused("report", answer);
            size_t length = kakoludar_count(answer);
            fwrite(line, 1, length, stdout);
            if (written + length > sizeof output) return 1;
            memcpy(output + written, line, length);
            written += length;
        }
    }

    if (show()) return 1;
    if (written != sizeof EXPECTED - 1 || memcmp(output, EXPECTED, written) != 0) {
        fprintf(stderr, "these are not the lines of the paper\n");
        return 1;
    }
    fprintf(stderr, "the paper's 13 lines\n");
    return come_back();
}
