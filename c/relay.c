/*
 * An example relay: reads a stream from standard input or a TCP connection, writes only its good frames, unchanged, to
 * standard output or another TCP connection, and accounts for every byte. Run it with --help for its options.
 */
#define _GNU_SOURCE
#include <errno.h>
#include <fcntl.h>
#include <getopt.h>
#include <inttypes.h>
#include <netdb.h>
#include <poll.h>
#include <signal.h>
#include <stdbool.h>
#include <stdio.h>
#include <stdlib.h>
#include <string.h>
#include <sys/socket.h>
#include <unistd.h>

#include "peerivolt.h"

enum { EXIT_DONE = 0, EXIT_FAILED = 1, EXIT_USAGE = 2 };

#define MESSAGE_NUMBERS 4096
#define WRITE_AT_ONCE 4096 /* A pipe that polls as writable takes so many bytes without blocking. */

static const char usage[] =
    "usage: relay [OPTION]..\n"
    "Reads an RTCM 3 stream and writes only its good frames, unchanged.\n"
    "\n"
    "  -l, --listen [HOST:]PORT      read from the first connection to PORT, not from standard input\n"
    "  -c, --connect HOST:PORT       read from HOST:PORT, not from standard input\n"
    "  -L, --out-listen [HOST:]PORT  write to the first connection to PORT, not to standard output\n"
    "  -C, --out-connect HOST:PORT   write to HOST:PORT, not to standard output\n"
    "  -m, --message N[,N..]         pass only messages with these numbers (0 to 4095); may be repeated\n"
    "  -s, --settings FILE           pass only messages whose numbers FILE holds, a settings block\n"
    "  -S, --save-settings           write the numbers of --message to FILE first, and use those\n"
    "  -u, --ubx pass|drop           take UBX frames for frames too, and pass them on or drop them; else they are skipped\n"
    "  -p, --places                  print the stream place, kind and length of each frame to standard error\n"
    "  -q, --quiet                   print no counts at the end\n"
    "  -h, --help                    print this and exit\n"
    "\n"
    "HOST is 127.0.0.1 where it may be left out and is; PORT 0 listens on a free port, which is printed.\n"
    "An IPv6 address is written [ADDRESS]:PORT.\n"
    "\n"
    "At the end of the stream, and on SIGINT or SIGTERM, which stop the relay, counts go to standard error;\n"
    "on SIGUSR1 too, and the relay goes on. On SIGHUP it reads FILE again. Where FILE cannot be read or its block\n"
    "is refused, the list of numbers stays as it was, and that is said.\n"
    "Exit status: 0 at the end of the stream or stopped by a signal; 1 if reading, writing or a connection\n"
    "failed, or if it was stopped while frames waited to be written; 2 on wrong usage.\n";

/* ---- Options. ---- */

struct options {
    const char *listen, *connect, *out_listen, *out_connect;
    bool only_some;
    bool passes[MESSAGE_NUMBERS];
    const char *settings;
    bool save_settings;
    bool ubx, pass_ubx, places;
    bool quiet;
};

static int wrong_usage(const char *what, const char *word)
{
    fprintf(stderr, "relay: %s%s\nTry 'relay --help'.\n", what, word);
    return -1;
}

#define HOST_MAX 256

static const char default_host[] = "127.0.0.1";

/* Splits [HOST:]PORT at its last colon. Without a host it is `otherwise`, and -1 if there is none. */
static int split_address(const char *address, const char *otherwise, char *host, const char **port)
{
    const char *colon = strrchr(address, ':');
    const char *name = colon != NULL ? address : otherwise;
    size_t length = colon != NULL ? (size_t)(colon - address) : otherwise != NULL ? strlen(otherwise) : 0;
    *port = colon != NULL ? colon + 1 : address;
    if (length >= 2 && name[0] == '[' && name[length - 1] == ']') {
        name++;
        length -= 2;
    }
    if (length == 0 || length >= HOST_MAX || **port == '\0')
        return -1;
    memcpy(host, name, length);
    host[length] = '\0';
    return 0;
}

/* Whether an address that may be absent has the form that its option asks for. */
static bool is_address(const char *address, const char *otherwise)
{
    char host[HOST_MAX];
    const char *port;
    return address == NULL || split_address(address, otherwise, host, &port) == 0;
}

static int add_messages(struct options *options, const char *list)
{
    const char *at = list;
    for (;;) {
        char *end;
        errno = 0;
        unsigned long number = strtoul(at, &end, 10);
        if (*at < '0' || *at > '9' || errno != 0 || number >= MESSAGE_NUMBERS || (*end != ',' && *end != '\0'))
            return wrong_usage("not a list of message numbers: ", list);
        options->passes[number] = true;
        options->only_some = true;
        if (*end == '\0')
            return 0;
        at = end + 1;
    }
}

/* Gives 0, or -1 on wrong usage, or 1 where help was asked for and printed. */
static int read_options(int argc, char **argv, struct options *options)
{
    static const struct option names[] = {
        { "listen", required_argument, NULL, 'l' },     { "connect", required_argument, NULL, 'c' },
        { "out-listen", required_argument, NULL, 'L' }, { "out-connect", required_argument, NULL, 'C' },
        { "message", required_argument, NULL, 'm' },    { "quiet", no_argument, NULL, 'q' },
        { "settings", required_argument, NULL, 's' },   { "save-settings", no_argument, NULL, 'S' },
        { "ubx", required_argument, NULL, 'u' },        { "places", no_argument, NULL, 'p' },
        { "help", no_argument, NULL, 'h' },             { NULL, 0, NULL, 0 },
    };
    int option;
    while ((option = getopt_long(argc, argv, "l:c:L:C:m:s:Su:pqh", names, NULL)) != -1) {
        switch (option) {
        case 'l': options->listen = optarg; break;
        case 'c': options->connect = optarg; break;
        case 'L': options->out_listen = optarg; break;
        case 'C': options->out_connect = optarg; break;
        case 'q': options->quiet = true; break;
        case 's': options->settings = optarg; break;
        case 'S': options->save_settings = true; break;
        case 'p': options->places = true; break;
        case 'u':
            if (strcmp(optarg, "pass") != 0 && strcmp(optarg, "drop") != 0)
                return wrong_usage("neither pass nor drop: ", optarg);
            options->ubx = true;
            options->pass_ubx = strcmp(optarg, "pass") == 0;
            break;
        case 'h': return fputs(usage, stdout) < 0 ? -1 : 1;
        case 'm':
            if (add_messages(options, optarg) != 0)
                return -1;
            break;
        default: return wrong_usage("see the line above", "");
        }
    }
    if (optind < argc)
        return wrong_usage("unexpected argument: ", argv[optind]);
    if (options->save_settings && options->settings == NULL)
        return wrong_usage("--save-settings needs --settings", "");
    if ((options->listen && options->connect) || (options->out_listen && options->out_connect))
        return wrong_usage("listen and connect exclude each other", "");
    if (!is_address(options->listen, default_host) || !is_address(options->out_listen, default_host) ||
        !is_address(options->connect, NULL) || !is_address(options->out_connect, NULL))
        return wrong_usage("an address is HOST:PORT", "");
    return 0;
}

/* ---- Settings: the list of passed numbers as block 0 of a file. ---- */

#define SETTINGS_INDEX 0

static void refused_settings(const char *path, uint32_t refusal)
{
    fprintf(stderr, "relay: %s: refused with %s; the list of numbers stays\n", path, pv_refusal_name(refusal));
}

/* Takes the list over from the file. Where that fails, says so and leaves the list as it is. */
static void load_settings(struct options *options)
{
    uint8_t block[PV_SETTINGS_SIZE + 1], priorities[PV_SETTINGS_MAX];
    uint16_t numbers[PV_SETTINGS_MAX];
    uint64_t extra[PV_EXTRA_SIZE];
    FILE *file = fopen(options->settings, "rb");
    if (file == NULL) {
        fprintf(stderr, "relay: %s: %s; the list of numbers stays\n", options->settings, strerror(errno));
        return;
    }
    size_t n = fread(block, 1, sizeof block, file);
    fclose(file);
    uint32_t refusal = pv_settings_read(block, n, 2, SETTINGS_INDEX, numbers, PV_SETTINGS_MAX, priorities,
                                        PV_SETTINGS_MAX, extra, PV_EXTRA_SIZE);
    if (refusal != PV_ACCEPTED) {
        refused_settings(options->settings, refusal);
        return;
    }
    memset(options->passes, 0, sizeof options->passes);
    for (size_t k = 0; k < extra[PV_AT_SETTINGS_COUNT]; k++)
        options->passes[numbers[k]] = true;
    options->only_some = true;
}

/* Writes all of a block to a new file and waits until it is on the disk. */
static int write_block(const char *path, const uint8_t *block)
{
    int fd = open(path, O_WRONLY | O_CREAT | O_TRUNC | O_CLOEXEC, 0666);
    if (fd < 0)
        return -1;
    size_t done = 0;
    while (done < PV_SETTINGS_SIZE) {
        ssize_t n = write(fd, block + done, PV_SETTINGS_SIZE - done);
        if (n < 0 && errno == EINTR)
            continue;
        if (n <= 0)
            break;
        done += (size_t)n;
    }
    int synced = done == PV_SETTINGS_SIZE ? fsync(fd) : -1;
    return close(fd) == 0 ? synced : -1;
}

/* Saves the list: written beside the file and then renamed, so that a cut at any moment leaves the old file or the new. */
static int save_settings(const struct options *options)
{
    uint8_t block[PV_SETTINGS_SIZE], priorities[MESSAGE_NUMBERS] = { 0 };
    uint16_t numbers[MESSAGE_NUMBERS];
    uint64_t extra[PV_EXTRA_SIZE];
    char beside[4096];
    size_t count = 0;
    for (unsigned number = 0; number < MESSAGE_NUMBERS; number++)
        if (options->passes[number])
            numbers[count++] = (uint16_t)number;
    uint32_t refusal = pv_settings_write(1, SETTINGS_INDEX, numbers, count, priorities, count, block, sizeof block, extra,
                                         PV_EXTRA_SIZE);
    if (refusal != PV_ACCEPTED) {
        fprintf(stderr, "relay: the list of %zu numbers is refused with %s\n", count, pv_refusal_name(refusal));
        return -1;
    }
    int length = snprintf(beside, sizeof beside, "%s.new", options->settings);
    if (length < 0 || (size_t)length >= sizeof beside || write_block(beside, block) != 0 ||
        rename(beside, options->settings) != 0) {
        fprintf(stderr, "relay: %s: %s\n", options->settings, strerror(errno));
        return -1;
    }
    return 0;
}

/* ---- Counts. ---- */

struct counts {
    uint64_t read, frames, frame_bytes, passed, passed_bytes, skipped;
    uint64_t without_number, ubx;
    uint64_t of_number[MESSAGE_NUMBERS];
};

static struct counts counts;
static struct pv_scanner scanner = PV_SCANNER_FRESH;

static void print_counts(void)
{
    fprintf(stderr, "relay: read %" PRIu64 " bytes\n", counts.read);
    fprintf(stderr, "relay: frames %" PRIu64 " of %" PRIu64 " bytes\n", counts.frames, counts.frame_bytes);
    fprintf(stderr, "relay: passed %" PRIu64 " of %" PRIu64 " bytes\n", counts.passed, counts.passed_bytes);
    fprintf(stderr, "relay: skipped %" PRIu64 " bytes\n", counts.skipped);
    if (scanner.mode == PV_RTCM_AND_UBX)
        fprintf(stderr, "relay: UBX %" PRIu64 "\n", counts.ubx);
    fprintf(stderr, "relay: held %zu bytes\n", scanner.held_count);
    for (size_t number = 0; number < MESSAGE_NUMBERS; number++)
        if (counts.of_number[number] > 0)
            fprintf(stderr, "relay: message %zu: %" PRIu64 "\n", number, counts.of_number[number]);
    if (counts.without_number > 0)
        fprintf(stderr, "relay: without number: %" PRIu64 "\n", counts.without_number);
}

/*
 * Keeps descriptors 0 to 2 from being given to something else where the relay was started without them: what is opened
 * there instead fails on use.
 */
static int occupy_standard_descriptors(void)
{
    for (int fd = STDIN_FILENO; fd <= STDERR_FILENO; fd++) {
        if (fcntl(fd, F_GETFD) >= 0)
            continue;
        if (open("/dev/null", fd == STDIN_FILENO ? O_WRONLY : O_RDONLY) != fd)
            return -1;
    }
    return 0;
}

/* ---- Signals: a handler writes the signal's number into a pipe, which is polled beside every descriptor. ---- */

static int signal_pipe[2];
static volatile sig_atomic_t asked_to_stop;

static void on_signal(int number)
{
    int before = errno;
    if (number != SIGUSR1 && number != SIGHUP)
        asked_to_stop = 1;
    unsigned char byte = (unsigned char)number;
    ssize_t ignored = write(signal_pipe[1], &byte, 1);
    (void)ignored;
    errno = before;
}

static int set_flags(int fd)
{
    int flags = fcntl(fd, F_GETFL);
    if (flags < 0 || fcntl(fd, F_SETFL, flags | O_NONBLOCK) != 0)
        return -1;
    return fcntl(fd, F_SETFD, FD_CLOEXEC);
}

static int catch_signals(void)
{
    struct sigaction action;
    memset(&action, 0, sizeof action);
    sigemptyset(&action.sa_mask);
    if (pipe(signal_pipe) != 0 || set_flags(signal_pipe[0]) != 0 || set_flags(signal_pipe[1]) != 0)
        return -1;
    action.sa_handler = on_signal;
    if (sigaction(SIGINT, &action, NULL) != 0 || sigaction(SIGTERM, &action, NULL) != 0 ||
        sigaction(SIGUSR1, &action, NULL) != 0 || sigaction(SIGHUP, &action, NULL) != 0)
        return -1;
    /* A closed peer is to be an error of write, not the end of the process. */
    action.sa_handler = SIG_IGN;
    return sigaction(SIGPIPE, &action, NULL);
}

/* What the relay runs with. */
static struct options *in_use;

/* Prints counts for each SIGUSR1 that came, reads the settings for each SIGHUP; gives true if a signal to stop came. */
static bool told_to_stop(void)
{
    unsigned char number;
    while (read(signal_pipe[0], &number, 1) == 1) {
        if (number == SIGUSR1)
            print_counts();
        if (number == SIGHUP && in_use->settings != NULL)
            load_settings(in_use);
    }
    return asked_to_stop;
}

/* ---- Waiting, reading, writing. ---- */

enum outcome { READY, STOPPED, FAILED };

static enum outcome failed(const char *what)
{
    fprintf(stderr, "relay: %s: %s\n", what, strerror(errno));
    return FAILED;
}

/* Waits until the descriptor is ready (an error or an end counts as ready) or a signal says stop. */
static enum outcome wait_for(int fd, short events)
{
    struct pollfd polled[2] = { { .fd = fd, .events = events }, { .fd = signal_pipe[0], .events = POLLIN } };
    for (;;) {
        if (poll(polled, 2, -1) < 0) {
            if (errno == EINTR)
                continue;
            return failed("poll");
        }
        if (polled[1].revents != 0 && told_to_stop())
            return STOPPED;
        if (polled[0].revents != 0)
            return READY;
    }
}

static bool try_again(void)
{
    return errno == EINTR || errno == EAGAIN || errno == EWOULDBLOCK;
}

/* Reads what there is, at most `size` bytes. *n is 0 at the end of the stream. */
static enum outcome read_piece(int fd, uint8_t *piece, size_t size, size_t *n)
{
    for (;;) {
        enum outcome outcome = wait_for(fd, POLLIN);
        if (outcome != READY)
            return outcome;
        ssize_t got = read(fd, piece, size);
        if (got >= 0) {
            *n = (size_t)got;
            return READY;
        }
        if (!try_again())
            return failed("reading");
    }
}

static enum outcome write_all(int fd, const uint8_t *bytes, size_t n)
{
    while (n > 0) {
        enum outcome outcome = wait_for(fd, POLLOUT);
        if (outcome == STOPPED)
            fprintf(stderr, "relay: stopped with %zu bytes not written\n", n);
        if (outcome != READY)
            return FAILED;
        ssize_t written = write(fd, bytes, n < WRITE_AT_ONCE ? n : WRITE_AT_ONCE);
        if (written < 0) {
            if (try_again())
                continue;
            return failed("writing");
        }
        bytes += written;
        n -= (size_t)written;
        counts.passed_bytes += (uint64_t)written;
    }
    return READY;
}

/* ---- Connections. ---- */

static struct addrinfo *look_up(const char *address, const char *otherwise, int flags)
{
    char host[HOST_MAX];
    const char *port;
    struct addrinfo hints;
    struct addrinfo *found = NULL;
    if (split_address(address, otherwise, host, &port) != 0)
        return NULL;
    memset(&hints, 0, sizeof hints);
    hints.ai_socktype = SOCK_STREAM;
    hints.ai_flags = flags;
    int error = getaddrinfo(host, port, &hints, &found);
    if (error != 0) {
        fprintf(stderr, "relay: %s: %s\n", address, gai_strerror(error));
        return NULL;
    }
    return found;
}

static int new_socket(const struct addrinfo *where)
{
    return socket(where->ai_family, where->ai_socktype | SOCK_NONBLOCK | SOCK_CLOEXEC, where->ai_protocol);
}

static void print_listening(int fd, const char *what)
{
    struct sockaddr_storage name;
    socklen_t size = sizeof name;
    char host[NI_MAXHOST], port[NI_MAXSERV];
    if (getsockname(fd, (struct sockaddr *)&name, &size) == 0 &&
        getnameinfo((struct sockaddr *)&name, size, host, sizeof host, port, sizeof port,
                    NI_NUMERICHOST | NI_NUMERICSERV) == 0)
        fprintf(stderr, "relay: %s on %s port %s\n", what, host, port);
}

static int try_listen(const struct addrinfo *where)
{
    int on = 1;
    int fd = new_socket(where);
    if (fd < 0)
        return -1;
    if (setsockopt(fd, SOL_SOCKET, SO_REUSEADDR, &on, sizeof on) == 0 && bind(fd, where->ai_addr, where->ai_addrlen) == 0 &&
        listen(fd, 1) == 0)
        return fd;
    close(fd);
    return -1;
}

/* A socket that listens, or -1 after saying why not. */
static int listen_on(const char *address, const char *what)
{
    struct addrinfo *found = look_up(address, default_host, AI_PASSIVE);
    int fd = -1;
    for (struct addrinfo *where = found; where != NULL && fd < 0; where = where->ai_next)
        fd = try_listen(where);
    if (found != NULL && fd < 0)
        failed(address);
    if (found != NULL)
        freeaddrinfo(found);
    if (fd >= 0)
        print_listening(fd, what);
    return fd;
}

/* Accepts the first connection, and closes the listener. */
static enum outcome accept_one(int *fd)
{
    int listener = *fd;
    enum outcome outcome;
    *fd = -1;
    while ((outcome = wait_for(listener, POLLIN)) == READY) {
        *fd = accept4(listener, NULL, NULL, SOCK_NONBLOCK | SOCK_CLOEXEC);
        if (*fd >= 0)
            break;
        if (!try_again() && errno != ECONNABORTED) {
            outcome = failed("accepting");
            break;
        }
    }
    close(listener);
    return outcome;
}

static enum outcome finish_connect(int fd)
{
    int error = 0;
    socklen_t size = sizeof error;
    enum outcome outcome = wait_for(fd, POLLOUT);
    if (outcome != READY)
        return outcome;
    if (getsockopt(fd, SOL_SOCKET, SO_ERROR, &error, &size) == 0 && error == 0)
        return READY;
    errno = error;
    return FAILED;
}

static enum outcome try_connect(const struct addrinfo *where, int *fd)
{
    *fd = new_socket(where);
    if (*fd < 0)
        return FAILED;
    enum outcome outcome = READY;
    if (connect(*fd, where->ai_addr, where->ai_addrlen) != 0)
        outcome = errno == EINPROGRESS || errno == EINTR ? finish_connect(*fd) : FAILED;
    if (outcome != READY) {
        int before = errno;
        close(*fd);
        *fd = -1;
        errno = before;
    }
    return outcome;
}

static enum outcome connect_to(const char *address, int *fd)
{
    struct addrinfo *found = look_up(address, NULL, 0);
    enum outcome outcome = FAILED;
    if (found == NULL)
        return FAILED;
    for (struct addrinfo *where = found; where != NULL && outcome == FAILED; where = where->ai_next)
        outcome = try_connect(where, fd);
    if (outcome == FAILED)
        failed(address);
    freeaddrinfo(found);
    return outcome;
}

/* ---- The relay itself. ---- */

#define FRAMES_LISTED 512 /* Frames that one call lists; a piece with more of them takes more calls. */

struct relay {
    const struct options *options;
    int in, out;
    uint8_t piece[PV_PIECE_MAX];
    struct pv_lists lists;
    uint32_t starts[FRAMES_LISTED], lengths[FRAMES_LISTED];
    uint8_t kinds[FRAMES_LISTED];
    uint8_t frames[PV_PIECE_MAX + PV_FRAME_MAX]; /* Frames that wait to be written. */
    size_t waiting;
};

/* Opens both ends. Listeners are bound before anything waits, so that peers may come in either order. */
static enum outcome open_ends(struct relay *relay)
{
    const struct options *options = relay->options;
    enum outcome outcome = READY;
    if (options->out_listen && (relay->out = listen_on(options->out_listen, "writing to the first connection")) < 0)
        return FAILED;
    if (options->listen && (relay->in = listen_on(options->listen, "reading from the first connection")) < 0)
        return FAILED;
    if (options->out_connect)
        outcome = connect_to(options->out_connect, &relay->out);
    if (outcome == READY && options->out_listen)
        outcome = accept_one(&relay->out);
    if (outcome == READY && options->connect)
        outcome = connect_to(options->connect, &relay->in);
    if (outcome == READY && options->listen)
        outcome = accept_one(&relay->in);
    return outcome;
}

/* Counts the frames of which every byte was written. */
static void count_passed(const uint8_t *frames, size_t written)
{
    while (written >= PV_FRAME_MIN) {
        size_t frame_len = ((size_t)(frames[1] & 3) << 8 | frames[2]) + PV_FRAME_MIN;
        if (frame_len > written)
            return;
        counts.passed++;
        frames += frame_len;
        written -= frame_len;
    }
}

static enum outcome flush(struct relay *relay)
{
    size_t n = relay->waiting;
    uint64_t before = counts.passed_bytes;
    relay->waiting = 0;
    enum outcome outcome = write_all(relay->out, relay->frames, n);
    count_passed(relay->frames, (size_t)(counts.passed_bytes - before));
    return outcome;
}

/* Counts a frame and says whether it is to be passed on. */
static bool count_frame(const struct options *options, const uint8_t *frame, size_t frame_len, uint64_t place, int kind)
{
    uint64_t extra[PV_EXTRA_SIZE];
    counts.frames++;
    counts.frame_bytes += frame_len;
    if (options->places)
        fprintf(stderr, "relay: %s frame of %zu bytes at %" PRIu64 "\n", kind == PV_UBX ? "UBX" : "RTCM", frame_len, place);
    if (kind == PV_UBX) {
        counts.ubx++;
        return options->pass_ubx;
    }
    /* The message number is the first 12 bits of the data, if there are two bytes of data. */
    if (pv_field_read_unsigned(frame + 3, frame_len - PV_FRAME_MIN, 0, 12, extra, PV_EXTRA_SIZE) != PV_ACCEPTED) {
        counts.without_number++;
        return !options->only_some;
    }
    counts.of_number[extra[PV_AT_FIELD_VALUE]]++;
    return !options->only_some || options->passes[extra[PV_AT_FIELD_VALUE]];
}

/* Puts the listed frames that are passed on behind those that wait. */
static enum outcome gather_listed(struct relay *relay, const struct pv_fed_all *fed, const uint8_t *piece)
{
    for (size_t i = 0; i < fed->count; i++) {
        const uint8_t *frame = pv_listed_frame(&relay->lists, fed, piece, i);
        size_t frame_len = relay->lengths[i];
        if (!count_frame(relay->options, frame, frame_len, fed->place + relay->starts[i], relay->kinds[i]))
            continue;
        if (sizeof relay->frames - relay->waiting < frame_len && flush(relay) != READY)
            return FAILED;
        memcpy(relay->frames + relay->waiting, frame, frame_len);
        relay->waiting += frame_len;
    }
    return READY;
}

/* Feeds one piece, as long as the lists are full. */
static enum outcome relay_piece(struct relay *relay, const uint8_t *piece, size_t n)
{
    struct pv_fed_all fed;
    do {
        uint32_t refusal = pv_scanner_feed_all(&scanner, piece, n, &relay->lists, &fed);
        if (refusal != PV_ACCEPTED) {
            fprintf(stderr, "relay: feeding was refused: %s\n", pv_refusal_name(refusal));
            return FAILED;
        }
        counts.skipped += fed.skipped;
        if (gather_listed(relay, &fed, piece) != READY)
            return FAILED;
        piece += fed.taken;
        n -= fed.taken;
    } while (fed.is_full);
    return flush(relay);
}

static enum outcome relay_stream(struct relay *relay)
{
    size_t n = 0;
    enum outcome outcome;
    while ((outcome = read_piece(relay->in, relay->piece, sizeof relay->piece, &n)) == READY && n > 0) {
        counts.read += n;
        outcome = relay_piece(relay, relay->piece, n);
        if (outcome != READY)
            break;
    }
    return outcome;
}

int main(int argc, char **argv)
{
    static struct options options;
    static struct relay relay = { .options = &options, .in = STDIN_FILENO, .out = STDOUT_FILENO };
    relay.lists.starts = relay.starts;
    relay.lists.lengths = relay.lengths;
    relay.lists.kinds = relay.kinds;
    relay.lists.places = FRAMES_LISTED;
    in_use = &options;
    int given = read_options(argc, argv, &options);
    if (given != 0)
        return given > 0 ? EXIT_DONE : EXIT_USAGE;
    scanner.mode = options.ubx ? PV_RTCM_AND_UBX : PV_RTCM_ONLY;
    if (occupy_standard_descriptors() != 0 || catch_signals() != 0) {
        failed("starting");
        return EXIT_FAILED;
    }
    if (options.save_settings && save_settings(&options) != 0)
        return EXIT_FAILED;
    if (options.settings != NULL && !options.save_settings)
        load_settings(&options);
    enum outcome outcome = open_ends(&relay);
    if (outcome == READY)
        outcome = relay_stream(&relay);
    if (!options.quiet)
        print_counts();
    return outcome == FAILED ? EXIT_FAILED : EXIT_DONE;
}
