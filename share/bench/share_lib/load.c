/*
 * load PORT TOKEN FOLDER VIEWERS SLOW LATE RESTLESS SECONDS CALM PACKS: viewers of vt100-share at 127.0.0.1, for
 * share/bench/share. They ask for compressed messages if PACKS is 1, as browsers do, and then compress theirs.
 *
 * The last LATE viewers join when there is a file FOLDER/late; the SLOW ones before them read 2 KB/s. The first
 * RESTLESS ones leave, stall, join again and send malformed messages at random, until CALM seconds after the start.
 * Creates FOLDER/open when the others are connected, and FOLDER/calm when all are connected and calm. Ends after
 * SECONDS, or when all have seen the end of the program.
 *
 * Writes which message reached the socket of which viewer when, and when it was read, to FOLDER/arrivals (struct
 * arrival), what terminals have read to FOLDER/messages (number, length, message), and what each viewer has read to
 * FOLDER/viewers (struct figures, and the numbers of the messages). Prints as JSON: counts, the longest time that the
 * server took to end the connection of a viewer that had sent a malformed message, and its own processor time, both in
 * milliseconds. `spared` counts the connections that it never ended.
 */
#define _GNU_SOURCE
#include <arpa/inet.h>
#include <errno.h>
#include <fcntl.h>
#include <netinet/tcp.h>
#include <stdint.h>
#include <stdio.h>
#include <stdlib.h>
#include <string.h>
#include <sys/epoll.h>
#include <time.h>
#include <unistd.h>
#include <zlib.h>

enum { ACKNOWLEDGE_AFTER = 4096, SLOW_RATE = 2048, ROOM = 1 << 16, SLOTS = 1 << 21, MOST_JOINING = 1000 };
enum state { AWAY, CONNECTING, HANDSHAKE, OPEN, GONE };

/* A message. `data` is there while a terminal has read it. */
struct slot { uint64_t key; uint32_t len, refs; uint8_t *data; };
struct arrival { uint64_t key, arrived, read; uint32_t viewer, is_first; };
struct figures { uint64_t bytes, updates; uint32_t has_end, seen_count; };
struct viewer {
    int fd, is_slow, is_restless, is_doomed, is_stalled, has_screen;
    enum state state;
    uint8_t *input;
    uint32_t *seen; /* the slots of the messages that its terminal has read */
    size_t len, room, budget, seen_room;
    uint32_t number, read, acknowledged;
    uint64_t wakes, offended;
    struct figures figures;
};

static struct slot *slots;
static uint32_t slot_count; /* of those in use */
static FILE *arrivals;
static uint64_t gone, refused, cut_off, slowest, spared, left, stalls;
static uint64_t offset; /* of the clock of the system, by which packets are stamped, to that of now() */
static int poll_fd, port, joining, packs;
static const char *token;

static uint64_t nanoseconds(const struct timespec *time) {
    return (uint64_t)time->tv_sec * 1000000000 + (uint64_t)time->tv_nsec;
}

static uint64_t now(void) {
    struct timespec time;
    clock_gettime(CLOCK_MONOTONIC, &time);
    return nanoseconds(&time);
}

static void compare_clocks(void) {
    struct timespec time;
    clock_gettime(CLOCK_REALTIME, &time);
    offset = nanoseconds(&time) - now();
}

/* Returns the slot of a message. */
static struct slot *slot_of(uint64_t key) {
    uint64_t at = key * 0x9e3779b97f4a7c15 >> 32;
    while (slots[at % SLOTS].key != 0 && slots[at % SLOTS].key != key) at++;
    struct slot *slot = &slots[at % SLOTS];
    slot_count += slot->key == 0;
    slot->key = key;
    if (slot_count > SLOTS / 4 * 3) fputs("load: too many messages\n", stderr), exit(1);
    return slot;
}

/* Makes the terminal of a viewer new. */
static void forget(struct viewer *viewer) {
    for (size_t k = 0; k < viewer->figures.seen_count; k++) {
        struct slot *slot = &slots[viewer->seen[k]];
        if (--slot->refs == 0) free(slot->data);
    }
    viewer->figures.seen_count = 0;
}

/* Takes a message that changes the screen of a viewer, and arrived as `packed_len` bytes. */
static void take_screen(struct viewer *viewer, const uint8_t *message, size_t len, size_t packed_len,
                        uint64_t arrived) {
    struct figures *figures = &viewer->figures;
    uint64_t key = (uint64_t)len << 32 | crc32(0, message, (uInt)len);
    struct arrival arrival = {key, arrived, now(), viewer->number, !viewer->has_screen};
    struct slot *slot = slot_of(key);
    if (!viewer->is_restless) fwrite(&arrival, sizeof arrival, 1, arrivals);
    if (message[0] == 'F') forget(viewer);
    if (slot->refs++ == 0) slot->data = memcpy(malloc(len), message, len), slot->len = (uint32_t)len;
    if (figures->seen_count == viewer->seen_room)
        viewer->seen = realloc(viewer->seen, 4 * (viewer->seen_room = 2 * viewer->seen_room + 16));
    viewer->seen[figures->seen_count++] = (uint32_t)(slot - slots);
    joining -= !viewer->has_screen;
    viewer->has_screen = 1;
    viewer->read += (uint32_t)len;
    figures->bytes += packed_len;
    figures->updates++;
}

/* Counts a viewer that has sent a malformed message, when its connection ends. */
static void count_doomed(const struct viewer *viewer) {
    uint64_t passed = now() - viewer->offended;
    if (viewer->figures.has_end) { spared++; return; }
    cut_off++;
    if (passed > slowest) slowest = passed;
}

static void hang_up(struct viewer *viewer) {
    joining -= !viewer->has_screen;
    if (viewer->fd >= 0) close(viewer->fd);
    if (viewer->is_doomed) count_doomed(viewer);
    viewer->state = viewer->figures.has_end || !viewer->is_restless ? GONE : AWAY;
    gone += viewer->state == GONE;
    if (viewer->state == AWAY) forget(viewer);
    if (viewer->is_doomed) viewer->wakes = 0; /* it joins again */
    viewer->fd = -1;
    viewer->len = 0;
    viewer->is_doomed = viewer->is_stalled = 0;
}

static void watch(struct viewer *viewer, int how, uint32_t events) {
    struct epoll_event event = {.events = events, .data.ptr = viewer};
    epoll_ctl(poll_fd, how, viewer->fd, &event);
}

static void join(struct viewer *viewer) {
    struct sockaddr_in address = {.sin_family = AF_INET, .sin_port = htons((uint16_t)port)};
    int one = 1, small = 2048;
    address.sin_addr.s_addr = htonl(INADDR_LOOPBACK);
    viewer->fd = socket(AF_INET, SOCK_STREAM | SOCK_NONBLOCK, 0);
    viewer->read = viewer->acknowledged = 0;
    viewer->has_screen = 0;
    viewer->state = CONNECTING;
    joining++;
    setsockopt(viewer->fd, IPPROTO_TCP, TCP_NODELAY, &one, sizeof one);
    setsockopt(viewer->fd, SOL_SOCKET, SO_TIMESTAMPNS, &one, sizeof one);
    if (viewer->is_slow) setsockopt(viewer->fd, SOL_SOCKET, SO_RCVBUF, &small, sizeof small);
    if (connect(viewer->fd, (void *)&address, sizeof address) < 0 && errno != EINPROGRESS) hang_up(viewer);
    else watch(viewer, EPOLL_CTL_ADD, EPOLLOUT);
}

static void transmit(struct viewer *viewer, const void *bytes, size_t len) {
    if (viewer->fd >= 0 && send(viewer->fd, bytes, len, MSG_NOSIGNAL) < 0 && errno != EAGAIN) hang_up(viewer);
}

/* Sends a binary message of at most 100 bytes. A compressed one is a block of RFC 1951, section 3.2.4. */
static void send_message(struct viewer *viewer, const char *message, size_t len) {
    char data[110] = {0, (char)len, 0, (char)~len, (char)0xff}, frame[120];
    memcpy(packs ? data + 5 : data, message, len);
    if (packs) data[5 + len] = 0, len += 6;
    memcpy(frame, (char[6]){(char)(packs ? 0xc2 : 0x82), (char)(0x80 | len), 1, 2, 3, 4}, 6);
    for (size_t k = 0; k < len; k++) frame[6 + k] = data[k] ^ frame[2 + k % 4];
    transmit(viewer, frame, 6 + len);
}

/* Decompresses a message (RFC 7692, section 7.2.2). Returns its length, or 0 if it is malformed. */
static size_t unpack(const uint8_t *data, size_t len, uint8_t *message, size_t room) {
    static z_stream stream;
    if (stream.state == NULL) inflateInit2(&stream, -15);
    inflateReset(&stream);
    stream.next_in = (uint8_t *)data, stream.avail_in = (uInt)len;
    stream.next_out = message, stream.avail_out = (uInt)room;
    if (inflate(&stream, Z_SYNC_FLUSH) != Z_OK || stream.avail_in > 0) return 0;
    stream.next_in = (uint8_t *)"\0\0\xff\xff", stream.avail_in = 4;
    int status = inflate(&stream, Z_SYNC_FLUSH);
    return status == Z_OK || status == Z_BUF_ERROR ? room - stream.avail_out : 0;
}

static void acknowledge(struct viewer *viewer) {
    uint32_t count = htonl(viewer->read);
    char message[5] = "a";
    memcpy(message + 1, &count, 4);
    viewer->acknowledged = viewer->read;
    send_message(viewer, message, sizeof message);
}

static void request(struct viewer *viewer) {
    char text[500];
    viewer->state = HANDSHAKE;
    watch(viewer, EPOLL_CTL_MOD, viewer->is_slow ? 0 : EPOLLIN);
    transmit(viewer, text, (size_t)snprintf(text, sizeof text,
        "GET /viewer HTTP/1.1\r\nHost: 127.0.0.1:%d\r\nOrigin: http://127.0.0.1:%d\r\nUpgrade: websocket\r\n"
        "Connection: Upgrade\r\nSec-WebSocket-Key: dGhlIHNhbXBsZSBub25jZQ==\r\nSec-WebSocket-Version: 13\r\n%s\r\n",
        port, port, packs ? "Sec-WebSocket-Extensions: permessage-deflate; client_max_window_bits\r\n" : ""));
}

/* Reads the response to the request. Returns its length, or 0 if it is incomplete or refuses the viewer. */
static size_t take_response(struct viewer *viewer) {
    uint8_t *end = memmem(viewer->input, viewer->len, "\r\n\r\n", 4);
    if (end == NULL) return 0;
    if (memcmp(viewer->input, "HTTP/1.1 101", 12) != 0) { refused++; hang_up(viewer); return 0; }
    viewer->state = OPEN;
    send_message(viewer, token, strlen(token));
    return (size_t)(end + 4 - viewer->input);
}

/* Reads a frame. Returns its length, or 0 if it is incomplete. */
static size_t take_frame(struct viewer *viewer, const uint8_t *frame, size_t len, uint64_t arrived) {
    if (len < 2) return 0;
    size_t count = frame[1] & 127, head = count == 126 ? 4 : count == 127 ? 10 : 2;
    if (len < head) return 0;
    if (head > 2) count = 0;
    for (size_t k = 2; k < head; k++) count = count << 8 | frame[k];
    if (len - head < count) return 0;
    static uint8_t unpacked[1 << 20];
    const uint8_t *message = frame[0] == 0xc2 ? unpacked : frame + head;
    size_t message_len = frame[0] == 0xc2 ? unpack(frame + head, count, unpacked, sizeof unpacked) : count;
    int kind = (frame[0] & 0xbf) == 0x82 && message_len > 0 ? message[0] : 0;
    if (kind == 'F' || kind == 'D') take_screen(viewer, message, message_len, count, arrived);
    viewer->figures.has_end |= kind == 'X';
    if (frame[0] == 0x88) hang_up(viewer);
    if (frame[0] == 0x89) transmit(viewer, "\x8a\x80\0\0\0\0", 6); /* a ping */
    return head + count;
}

static void take_input(struct viewer *viewer, uint64_t arrived) {
    size_t at = viewer->state == HANDSHAKE ? take_response(viewer) : 0, more = 1;
    for (; viewer->state == OPEN && more > 0; at += more)
        more = take_frame(viewer, viewer->input + at, viewer->len - at, arrived);
    if (viewer->fd < 0) return;
    memmove(viewer->input, viewer->input + at, viewer->len -= at);
    if (viewer->read - viewer->acknowledged >= ACKNOWLEDGE_AFTER) acknowledge(viewer);
}

/* Returns when the system has got the last of the bytes of a message. */
static uint64_t arrival_of(struct msghdr *message) {
    struct timespec time;
    for (struct cmsghdr *one = CMSG_FIRSTHDR(message); one != NULL; one = CMSG_NXTHDR(message, one))
        if (one->cmsg_level == SOL_SOCKET && one->cmsg_type == SCM_TIMESTAMPNS) {
            memcpy(&time, CMSG_DATA(one), sizeof time);
            return nanoseconds(&time) - offset;
        }
    return now();
}

/* Reads at most `most` bytes. Returns how many it has read. */
static size_t receive(struct viewer *viewer, size_t most) {
    if (viewer->room - viewer->len < most)
        viewer->input = realloc(viewer->input, viewer->room = viewer->len + most);
    char control[256];
    struct iovec room = {viewer->input + viewer->len, most};
    struct msghdr message = {
        .msg_iov = &room, .msg_iovlen = 1, .msg_control = control, .msg_controllen = sizeof control};
    ssize_t got = recvmsg(viewer->fd, &message, 0);
    if (got == 0 || (got < 0 && errno != EAGAIN)) hang_up(viewer);
    if (got <= 0) return 0;
    viewer->len += (size_t)got;
    take_input(viewer, arrival_of(&message));
    return (size_t)got;
}

static void serve_slow(struct viewer *viewer, size_t more) {
    if (viewer->state != HANDSHAKE && viewer->state != OPEN) return;
    viewer->budget += viewer->state == HANDSHAKE ? 4096 : more;
    if (viewer->budget > 4096) viewer->budget = 4096;
    if (viewer->budget > 0) viewer->budget -= receive(viewer, viewer->budget);
}

/* Sends what no page sends. The server must end the connection: the viewer does nothing more. */
static void offend(struct viewer *viewer, uint64_t time) {
    static const struct { size_t len; const char *bytes; } frames[] = {
        {7, "\x82\x81\0\0\0\0q"}, {11, "\x82\x85\0\0\0\0a\x7f\xff\xff\xff"}, {3, "\x82\x01q"}, {7, "\x81\x81\0\0\0\0x"},
        {5, "\xff\xff\xff\xff\xff"}, {8, "\x82\xfe\xff\xff\0\0\0\0"}, {9, "\x82\x83\0\0\0\0ils"},
        {7, "\x80\x81\0\0\0\0q"}, {8, "\xc2\x82\0\0\0\0\xff\xff"}, {7, "\x88\x81\0\0\0\0q"},
        {14, "\x82\xff\0\0\0\1\0\0\0\0\0\0\0\0"}, {6, "\x88\x80\0\0\0\0"} };
    size_t which = (size_t)rand() % (sizeof frames / sizeof *frames + 1);
    viewer->is_doomed = 1;
    viewer->offended = time;
    if (which < sizeof frames / sizeof *frames) transmit(viewer, frames[which].bytes, frames[which].len);
    else for (int k = 0; k < 3000 && viewer->fd >= 0; k++) acknowledge(viewer);
}

/* Has a restless viewer do something at random. */
static void act(struct viewer *viewer, uint64_t time, int is_calm) {
    if (time < viewer->wakes) return;
    viewer->wakes = time + 1000000 * (uint64_t)(1000 + rand() % 8000);
    if (viewer->state == AWAY && joining < MOST_JOINING) join(viewer);
    if (viewer->state != OPEN || viewer->is_doomed) return;
    int deed = is_calm ? 0 : rand() % 12;
    viewer->is_stalled = deed == 4 || deed == 5;
    stalls += (uint64_t)viewer->is_stalled;
    watch(viewer, EPOLL_CTL_MOD, viewer->is_stalled ? 0 : EPOLLIN);
    if (deed == 1) left++, hang_up(viewer);
    if (deed == 2) acknowledge(viewer);
    if (deed == 3) offend(viewer, time);
}

/* Returns whether all viewers are connected, read what they get, and have broken no rule. */
static int is_settled(const struct viewer *viewers, int count) {
    for (int k = 0; k < count; k++)
        if (viewers[k].state != OPEN || !viewers[k].has_screen || viewers[k].is_doomed || viewers[k].is_stalled)
            return 0;
    return 1;
}

static void write_seen(const struct viewer *viewers, int count) {
    FILE *messages = fopen("messages", "w"), *list = fopen("viewers", "w");
    for (uint32_t k = 0; k < SLOTS; k++)
        if (slots[k].refs > 0) {
            fwrite((uint32_t[2]){k, slots[k].len}, 4, 2, messages);
            fwrite(slots[k].data, 1, slots[k].len, messages);
        }
    for (int k = 0; k < count; k++) {
        fwrite(&viewers[k].figures, sizeof(struct figures), 1, list);
        fwrite(viewers[k].seen, 4, viewers[k].figures.seen_count, list);
    }
    fclose(messages), fclose(list), fclose(arrivals);
}

int main(int argc, char **argv) {
    if (argc != 11 || chdir(argv[3]) != 0) return 2;
    port = atoi(argv[1]), token = argv[2];
    int count = atoi(argv[4]), slow = atoi(argv[5]), late = atoi(argv[6]), restless = atoi(argv[7]);
    int next = 0, is_open = 0, is_calm = 0;
    uint64_t begin = now(), last = begin, stop = begin + 1000000000 * (uint64_t)atoi(argv[8]);
    uint64_t calm = begin + 1000000000 * (uint64_t)atoi(argv[9]);
    packs = atoi(argv[10]);
    struct viewer *viewers = calloc((size_t)count, sizeof *viewers);
    struct epoll_event events[1024];
    slots = calloc(SLOTS, sizeof *slots);
    poll_fd = epoll_create1(0), arrivals = fopen("arrivals", "w");
    compare_clocks();
    for (int k = 0; k < count; k++) {
        viewers[k].fd = -1, viewers[k].number = (uint32_t)k;
        viewers[k].is_slow = k >= count - slow - late && k < count - late;
        viewers[k].is_restless = k < restless;
    }
    for (uint64_t time = begin; time < stop && gone < (uint64_t)count; time = now()) {
        int known = next < count - late || access("late", F_OK) != 0 ? count - late : count;
        while (next < known && joining < MOST_JOINING) join(&viewers[next++]);
        int got = epoll_wait(poll_fd, events, 1024, 20);
        for (int k = 0; k < got; k++) {
            struct viewer *viewer = events[k].data.ptr;
            if (viewer->state == CONNECTING) request(viewer);
            else if (viewer->fd >= 0 && !viewer->is_slow) receive(viewer, ROOM);
        }
        for (int k = 0; k < restless && is_open; k++) act(&viewers[k], time, time > calm);
        if (!is_calm && time > calm && is_settled(viewers, count)) is_calm = 1, close(open("calm", O_CREAT, 0644));
        if (time - last >= 50000000) {
            compare_clocks();
            for (int k = count - late - slow; k < count - late; k++)
                serve_slow(&viewers[k], (time - last) * SLOW_RATE / 1000000000);
            last = time;
        }
        if (!is_open && next >= count - late && joining == 0) is_open = 1, close(open("open", O_CREAT, 0644));
    }
    for (int k = 0; k < count; k++) spared += (uint64_t)viewers[k].is_doomed;
    write_seen(viewers, count);
    printf("{\"refused\": %lu, \"left\": %lu, \"stalls\": %lu, \"cut_off\": %lu, \"slowest_ms\": %lu, \"spared\": %lu, "
        "\"messages\": %u, \"load_ms\": %lu}\n", refused, left, stalls, cut_off, slowest / 1000000, spared, slot_count,
        (unsigned long)(clock() / (CLOCKS_PER_SEC / 1000)));
    return 0;
}
