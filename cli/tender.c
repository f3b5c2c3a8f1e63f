/*
 * tender: the command over the calls of tender.h. `tender list [FILE]` writes the list of a bid text, `tender rewrite
 * [FILE]` the text in one spelling, `tender highest BIDDER [FILE]` the highest price with which a bid would win.
 *
 * All that is decided about a tender is decided by the proved calls. This file reads, writes, says in words what a
 * refusal or a highest price means and that the house is booked, and tells by its exit status how it went: 0 awarded,
 * rewritten or answered, 1 refused, 2 trouble.
 */
#define _POSIX_C_SOURCE 200809L
#include "tender.h"

#include <errno.h>
#include <fcntl.h>
#include <inttypes.h>
#include <pthread.h>
#include <signal.h>
#include <stdarg.h>
#include <stdbool.h>
#include <stdio.h>
#include <stdlib.h>
#include <string.h>
#include <unistd.h>

enum { DONE, REFUSED, TROUBLE };

static const char HELP[] =
    "usage: tender list [-q] [FILE]\n"
    "       tender rewrite [-q] [FILE]\n"
    "       tender highest [-q] BIDDER [FILE]\n"
    "       tender --help | --version\n"
    "\n"
    "Reads a bid text from FILE, or from standard input where FILE is left out or -.\n"
    "\n"
    "  list        write its list: who wins and what each is paid\n"
    "  rewrite     write it in one spelling: each bid's windows joined where they overlap\n"
    "              or touch, in rising order, and prices in whole cents\n"
    "  highest     write the highest price in cents with which bidder BIDDER would win if\n"
    "              all else stood, or none where not even 0 would\n"
    "\n"
    "Where the text or the tender is declined, (refused N P) is written, number and place.\n"
    "\n"
    "  -q          say nothing on standard error about a refusal, the house or the price\n"
    "  --          what follows is no option\n"
    "  --help      write this text\n"
    "  --version   write the version, and the kit that proved the calls\n"
    "\n"
    "Exit status: 0 awarded, rewritten or answered, 1 refused, 2 trouble (bad usage, cannot\n"
    "read, cannot write).\n";

static const char ABOUT[] = "tender " VERSION "\nproved with " KIT "\n";

/* Room for every list, every rewritten text and every line of a price. */
enum { OUT_MAX = TENDER_TEXT_MAX < TENDER_LIST_MAX ? TENDER_LIST_MAX : TENDER_TEXT_MAX };

/* One byte more than a text may have, so that a longer one is seen to be too long; and the byte 0 after what is written. */
static uint8_t text[TENDER_TEXT_MAX + 1], out[OUT_MAX + 1];
static size_t text_len, out_len;
static uint64_t bidder; /* who is asked for, by a command that asks for one */

static int trouble(const char *format, ...)
{
    va_list rest;
    va_start(rest, format);
    fputs("tender: ", stderr);
    vfprintf(stderr, format, rest);
    fputc('\n', stderr);
    va_end(rest);
    return TROUBLE;
}

/* reading and writing */

/* Reads until the input ends or the text is too long. */
static bool read_text(int fd)
{
    while (text_len < sizeof text) {
        ssize_t got = read(fd, text + text_len, sizeof text - text_len);
        if (got < 0 && errno == EINTR) continue;
        if (got < 0) return false;
        if (got == 0) break;
        text_len += (size_t)got;
    }
    return true;
}

static bool write_all(const char *bytes, size_t n)
{
    while (n > 0) {
        ssize_t put = write(STDOUT_FILENO, bytes, n);
        if (put < 0 && errno == EINTR) continue;
        if (put <= 0) return false;
        bytes += put;
        n -= (size_t)put;
    }
    return true;
}

/* Writes all the bytes and closes standard output, as some systems tell a failed write only there. 0, or trouble. */
static int write_out(const void *bytes, size_t n)
{
    bool done = write_all(bytes, n) && close(STDOUT_FILENO) == 0;
    return done ? 0 : trouble("standard output cannot be written: %s", strerror(errno));
}

/* what a refusal means */

/* what the sentence names: the place, or who was asked for */
enum place { NOWHERE, LINE, MINUTE, BIDDER };

static const struct { enum place place; const char *what; } REFUSALS[] = {
    [1] = {NOWHERE, "the text is longer than 65,536 bytes"},
    [2] = {LINE, "not a bid or not spelt as one"},
    [3] = {LINE, "a bidder outside 1 to 999,999 or a price above 100,000,000 cents"},
    [4] = {LINE, "a bid after 1,000 bids, or more than 32 windows in a bid"},
    [5] = {LINE, "a window that ends before it starts, or where it starts"},
    [6] = {LINE, "a bidder number used on an earlier line"},
    [7] = {LINE, "more than one window in a single tender"},
    [11] = {MINUTE, "in no bid"},
    [12] = {MINUTE, "in one bid only, and each minute needs two"},
    [15] = {LINE, "a window that ends after the week, above 10,080"},
    [16] = {LINE, "a reserve after a bid, or a second reserve"},
    [17] = {BIDDER, "no bid has the bidder number"},
};

/* The line's first bytes, with \xNN for a byte that does not print. */
static void quote(const uint8_t *line, size_t len)
{
    enum { SHOWN = 100 };
    for (size_t i = 0; i < len && i < SHOWN; i++) fprintf(stderr, line[i] >= 32 && line[i] < 127 ? "%c" : "\\x%02x", line[i]);
    fputs(len > SHOWN ? "...\n" : "\n", stderr);
}

/* Whether a line that begins as a bid or a reserve has a price with a point or a comma that is not spelt as one. */
static bool misspelt_price(const uint8_t *line, size_t len)
{
    char start[64], price[32];
    snprintf(start, sizeof start, "%.*s", len < sizeof start ? (int)len : (int)sizeof start, (const char *)line);
    if (sscanf(start, "(bid %*[^ ] %31[^ )]", price) != 1 && sscanf(start, "(reserve %31[^ )]", price) != 1) return false;
    size_t whole = strspn(price, "0123456789");
    bool counted = whole >= 1 && whole <= 7 && (whole == 1 || price[0] != '0');
    bool spelt = counted && price[whole] == '.' && strspn(price + whole + 1, "0123456789") == 2 && !price[whole + 3];
    return strpbrk(price, ".,") && !spelt;
}

static void tell_line(unsigned number, unsigned long place)
{
    const uint8_t *line = text, *end = text + text_len, *stop;
    for (unsigned long k = 1; k < place && (stop = memchr(line, '\n', (size_t)(end - line))); k++) line = stop + 1;
    stop = memchr(line, '\n', (size_t)(end - line));
    size_t len = (size_t)((stop ? stop : end) - line);
    const char *what = REFUSALS[number].what;
    if (number == 2 && len >= 8 && !memcmp(line, "(reserve", 8)) what = "not spelt as a reserve";
    if (number == 2 && misspelt_price(line, len))
        what = "a price is spelt as 250 or as 2.50, with at most seven digits before the point and no leading zero";
    if (number == 2 && place == 1) what = "not a tender or not spelt as one";
    if (number == 2 && !stop) what = "no newline at the end of the line";
    if (number == 2 && len == 0) what = stop ? "the line is empty" : "the text is empty";
    fprintf(stderr, "tender: line %lu: %s%s", place, what, len ? ": " : "");
    quote(line, len);
}

static void tell_minute(unsigned number, unsigned long minute)
{
    fprintf(stderr, "tender: minute %lu (day %lu, %02lu:%02lu): %s\n",
        minute, minute / 1440 + 1, minute / 60 % 24, minute % 60, REFUSALS[number].what);
}

static void tell(unsigned number, unsigned long place)
{
    bool known = number < sizeof REFUSALS / sizeof *REFUSALS && REFUSALS[number].what;
    if (!known) fprintf(stderr, "tender: refused, number %u, place %lu\n", number, place);
    else if (REFUSALS[number].place == LINE) tell_line(number, place);
    else if (REFUSALS[number].place == MINUTE) tell_minute(number, place);
    else if (REFUSALS[number].place == BIDDER) fprintf(stderr, "tender: %s %" PRIu64 "\n", REFUSALS[number].what, bidder);
    else fprintf(stderr, "tender: %s\n", REFUSALS[number].what);
}

/* what is said where nothing is refused */

/* That the house is booked, where the list has a line of the house; none is the first. */
static void tell_house(void)
{
    const char *line = strstr((const char *)out, "\n(house ");
    unsigned long price;
    if (line && sscanf(line, "\n(house %lu)", &price) == 1)
        fprintf(stderr, "tender: the house is booked for %lu cents, counted in the cost and not in the sum paid\n", price);
}

/* What the answer means to who asks, with the bid's line, so that the price named is in sight. An accepted text has just
   one line of this bidder, which is not the first, and no byte 0 before its end. */
static void tell_highest(void)
{
    enum { TOP_PRICE = 100000000 };
    char start[32];
    uint64_t price;
    snprintf(start, sizeof start, "\n(bid %" PRIu64 " ", bidder);
    const char *line = strstr((const char *)text, start);
    if (!line) return;
    fprintf(stderr, "tender: bidder %" PRIu64 " would win with ", bidder);
    if (sscanf((const char *)out, "(highest %*u %" SCNu64, &price) == 1)
        fprintf(stderr, "a price of up to %" PRIu64 " cents, and with none above, if all else stood%s: ", price,
            price > TOP_PRICE ? " and prices had no limit" : "");
    else fputs("no price, not even 0, if all else stood: ", stderr);
    quote((const uint8_t *)line + 1, strcspn(line + 1, "\n"));
}

/* A rewritten text speaks for itself. */
static void tell_nothing(void)
{
}

/* the commands */

static size_t make_list(void)
{
    return tender_list(text, text_len, out, OUT_MAX);
}

static size_t make_rewritten(void)
{
    return tender_rewrite(text, text_len, out, OUT_MAX);
}

static size_t make_highest(void)
{
    return tender_highest(text, text_len, bidder, out, OUT_MAX);
}

/* Whether a bidder's number stands before FILE, the call, and what is said where nothing is refused. */
static const struct command {
    const char *name;
    bool of_bidder;
    size_t (*make)(void);
    void (*tell)(void);
} COMMANDS[] = {
    {"list", false, make_list, tell_house},
    {"rewrite", false, make_rewritten, tell_nothing},
    {"highest", true, make_highest, tell_highest},
};

static const struct command *command;

static const struct command *named(const char *word)
{
    for (size_t i = 0; i < sizeof COMMANDS / sizeof *COMMANDS; i++) if (!strcmp(word, COMMANDS[i].name)) return &COMMANDS[i];
    return NULL;
}

static void *make_out(void *unused)
{
    out_len = command->make();
    return unused;
}

/* Runs a call on a thread with the stack that the calls ask for, whatever the limit of this process is. 0 or an error. */
static int on_large_stack(void *(*call)(void *))
{
    pthread_t thread;
    pthread_attr_t attr;
    int error = pthread_attr_init(&attr);
    if (!error) error = pthread_attr_setstacksize(&attr, TENDER_STACK + (1 << 16));
    if (!error) error = pthread_create(&thread, &attr, call, NULL);
    return error ? error : pthread_join(thread, NULL);
}

static int run(const char *file, bool quiet)
{
    bool from_file = file && strcmp(file, "-") != 0;
    int fd = from_file ? open(file, O_RDONLY) : STDIN_FILENO;
    if (fd < 0 || !read_text(fd)) return trouble("%s cannot be read: %s", from_file ? file : "standard input", strerror(errno));
    if (from_file) close(fd);
    int error = on_large_stack(make_out);
    if (error) return trouble("no room for a stack of %u bytes: %s", TENDER_STACK, strerror(error));
    if (out_len == 0) return trouble("what is to be written is longer than the room for it"); /* 13 and 14, never due here */
    if (write_out(out, out_len)) return TROUBLE;
    unsigned number;
    unsigned long place;
    bool refused = sscanf((const char *)out, "(refused %u %lu", &number, &place) == 2;
    if (!quiet && refused) tell(number, place);
    else if (!quiet) command->tell();
    return refused ? REFUSED : DONE;
}

/* Who is asked for: digits alone, no leading zero but 0 itself, and a number of 64 bits. */
static bool take_bidder(const char *word)
{
    size_t digits = strspn(word, "0123456789");
    bool spelt = digits && !word[digits] && (digits == 1 || word[0] != '0');
    errno = 0;
    bidder = strtoull(word, NULL, 10);
    return spelt && !errno;
}

int main(int argc, char **argv)
{
    /* A closed pipe and a file that may not grow are failed writes, told as such, and no silent death. */
    signal(SIGPIPE, SIG_IGN);
    signal(SIGXFSZ, SIG_IGN);
    setvbuf(stderr, NULL, _IOLBF, BUFSIZ); /* a message is written at once */
    bool quiet = false, options = true;
    enum { MOST = 3 };
    const char *words[MOST + 1] = {NULL}; /* as many as a command may have, and one too many */
    int count = 0;
    for (int i = 1; i < argc; i++) {
        const char *word = argv[i];
        if (!options || word[0] != '-' || !strcmp(word, "-")) {
            if (count <= MOST) words[count++] = word;
        }
        else if (!strcmp(word, "--")) options = false;
        else if (!strcmp(word, "-q")) quiet = true;
        else if (!strcmp(word, "--help")) return write_out(HELP, strlen(HELP));
        else if (!strcmp(word, "--version")) return write_out(ABOUT, strlen(ABOUT));
        else return trouble("no such option: %s; see tender --help", word);
    }
    if (!words[0]) return trouble("no command; see tender --help");
    command = named(words[0]);
    if (!command) return trouble("no such command: %s; see tender --help", words[0]);
    int before_file = command->of_bidder ? 2 : 1;
    if (count > before_file + 1) return trouble("too many words, from '%s' on; see tender --help", words[before_file + 1]);
    if (command->of_bidder && !words[1]) return trouble("no bidder number; see tender --help");
    if (command->of_bidder && !take_bidder(words[1])) return trouble("'%s' is no bidder number; see tender --help", words[1]);
    return run(words[before_file], quiet);
}
