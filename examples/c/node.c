/* A node of its own, which runs the proved rule of Manne and others: one process, over UDP on the loopback.
 *
 *   cc examples/c/node.c -Irelease release/librudekpi.a -o node
 *   mkdir d && printf '{"nodes": [1, 2, 3]}\n{"link": [1, 2]}\n{"link": [2, 3]}\n' > d/log
 *   ./node d 1 2 & ./node d 2 1 3 & ./node d 3 2 &
 *   python3 -m rudekpi conform --rules manne d/log       # whenever you like
 *
 * Words: a folder, the node's name, its neighbours' names. Kill and restart nodes at will. A node that starts has
 * lost its registers, and logs that as a fault.
 *
 * To move, a node locks its neighbourhood, itself included, in the order of names, so no circle of waiting arises.
 * Each grant carries the granter's registers. With all locks the node asks rudekpi_local_rule, writes its
 * registers and a line of the log, and frees the locks. A node that starts does not know who holds its lock: it
 * grants nothing before each neighbour has given up the lock of its earlier life. So the neighbours of a dead node
 * wait for its return. */
#define _POSIX_C_SOURCE 200809L
#include <arpa/inet.h>
#include <fcntl.h>
#include <poll.h>
#include <stdio.h>
#include <stdlib.h>
#include <sys/socket.h>
#include <sys/stat.h>
#include <time.h>
#include <unistd.h>
#include "rudekpi.h"

enum { MOST = 64, TICK = 20 /* milliseconds */, GOSSIP = 5 /* ticks */ };
/* TOLD: my registers. BACK: I start, in this life; SEEN answers it. ASK for a lock, GRANT it, FREE it again. */
enum kind { TOLD, BACK, SEEN, ASK, GRANT, FREE };

struct message {
    uint64_t run, number; /* the folder; the life of BACK and SEEN, the number of the attempt of ASK, GRANT, FREE */
    uint32_t from, to, kind, pointer, flag;
};

/* The node and its neighbours, ascending by name. */
static struct peer {
    struct sockaddr_in at;
    struct rudekpi_record copy; /* what is known of its registers */
    uint64_t asked;             /* the attempt that waits for my lock, or 0 */
    bool has_address, has_seen;
} peers[MOST];
static int count, self, holder = -1, waits_for = -1, sock, lines;
static uint64_t run, life, attempt, held_for;

static void fail(const char *what) {
    perror(what);
    exit(1);
}

static uint64_t microseconds(void) {
    struct timespec now;
    clock_gettime(CLOCK_MONOTONIC, &now);
    return (uint64_t)now.tv_sec * 1000000 + (uint64_t)now.tv_nsec / 1000;
}

static void send_to(int to, enum kind kind, uint64_t number) {
    const struct rudekpi_record *mine = &peers[self].copy;
    struct message it = {run, number, mine->node, peers[to].copy.node, kind, mine->pointer, mine->flag};
    if (peers[to].has_address) sendto(sock, &it, sizeof it, 0, (struct sockaddr *)&peers[to].at, sizeof peers[to].at);
}

/* One write a line: lines of many processes stay whole, and their order is that of the writes. */
static void log_line(const char *event) {
    char line[160], target[16] = "null";
    const struct rudekpi_record *mine = &peers[self].copy;
    if (mine->pointer) snprintf(target, sizeof target, "%u", mine->pointer);
    int length = snprintf(line, sizeof line, "{\"%s\": %u, \"pointer\": %s, \"flag\": %s}\n", event, mine->node, target,
                          mine->flag ? "true" : "false");
    if (write(lines, line, (size_t)length) != length) fail("the log");
}

static bool is_back(void) {
    for (int at = 0; at < count; at++)
        if (!peers[at].has_seen) return false;
    return true;
}

/* Grants the lock to whoever waits for it, in turn. */
static void grant_next(void) {
    static int turn;
    for (int more = 0; more < count && holder < 0 && is_back(); more++) {
        turn = (turn + 1) % count;
        if (!peers[turn].asked) continue;
        holder = turn;
        held_for = peers[turn].asked;
        peers[turn].asked = 0;
        send_to(holder, GRANT, held_for);
    }
}

/* The answer of the proved rule, by what is known of the neighbours. */
static bool rule(struct rudekpi_local_move *move) {
    struct rudekpi_record around[MOST];
    int near = 0;
    for (int at = 0; at < count; at++)
        if (at != self) around[near++] = peers[at].copy;
    uint32_t status = rudekpi_local_rule(RUDEKPI_MANNE, &peers[self].copy, around, near, move);
    if (status == RUDEKPI_DONE) return move->rule != 0;
    fprintf(stderr, "node %u: %s\n", peers[self].copy.node, rudekpi_view_fault_text(move->fault));
    exit(1);
}

/* Ends the attempt. */
static void let_go(void) {
    for (int at = 0; at <= waits_for && at < count; at++) send_to(at, FREE, attempt);
    waits_for = -1;
}

/* All locks are here: no neighbour writes before they are freed. */
static void move_now(void) {
    struct rudekpi_record *mine = &peers[self].copy;
    struct rudekpi_local_move move;
    if (rule(&move)) {
        mine->pointer = move.pointer;
        mine->flag = move.flag;
        log_line(move.rule == RUDEKPI_REPAIR ? "fault" : "move");
    }
    let_go();
    for (int at = 0; at < count; at++) send_to(at, TOLD, 0);
}

static void begin(void) {
    struct rudekpi_local_move move;
    if (waits_for >= 0 || !is_back() || !rule(&move)) return;
    waits_for = 0;
    send_to(0, ASK, ++attempt);
}

static void take_grant(int from, uint64_t number) {
    /* of an attempt that is over; a grant may also come twice */
    if (number != attempt || from > waits_for) send_to(from, FREE, number);
    if (number != attempt || from != waits_for) return;
    if (++waits_for == count)
        move_now();
    else
        send_to(waits_for, ASK, attempt);
}

/* A neighbour starts: what it granted is void, and it holds no lock. */
static void take_back(int from, uint64_t number) {
    if (from == holder) holder = -1;
    peers[from].asked = 0;
    if (from <= waits_for) let_go();
    send_to(from, SEEN, number);
    grant_next();
}

static void take(const struct message *it, const struct sockaddr_in *sender) {
    int from = 0;
    while (from < count && peers[from].copy.node != it->from) from++;
    if (from == count || it->run != run || it->to != peers[self].copy.node) return;
    peers[from].at = *sender;
    peers[from].has_address = true;
    if (from != self) {
        peers[from].copy.pointer = it->pointer;
        peers[from].copy.flag = it->flag;
    }
    if (it->kind == BACK) take_back(from, it->number);
    if (it->kind == GRANT) take_grant(from, it->number);
    if (it->kind == SEEN && it->number == life && !peers[from].has_seen) {
        peers[from].has_seen = true;
        if (is_back()) log_line("fault"); /* its memory was lost */
    }
    if (it->kind == ASK) peers[from].asked = it->number;
    if (it->kind == FREE && from == holder && it->number == held_for) holder = -1;
    grant_next();
}

static struct sockaddr_in loopback(unsigned port) {
    struct in_addr here = {htonl(INADDR_LOOPBACK)};
    return (struct sockaddr_in){.sin_family = AF_INET, .sin_port = htons((uint16_t)port), .sin_addr = here};
}

/* The kernel chooses the port; the folder has it under the node's name, for neighbours that start later. */
static void open_files(const char *folder, uint32_t name) {
    char port[64], beside[64];
    struct sockaddr_in at = loopback(0);
    socklen_t size = sizeof at;
    sock = socket(AF_INET, SOCK_DGRAM, 0);
    if (bind(sock, (struct sockaddr *)&at, size) || getsockname(sock, (struct sockaddr *)&at, &size)) fail("socket");
    if (chdir(folder) || (lines = open("log", O_WRONLY | O_APPEND)) < 0) fail("the log");
    snprintf(port, sizeof port, "%u.port", name);
    snprintf(beside, sizeof beside, "%u.new", name);
    FILE *file = fopen(beside, "w");
    if (!file || fprintf(file, "%u\n", ntohs(at.sin_port)) < 0 || fclose(file) || rename(beside, port)) fail(port);
}

static void find(struct peer *peer) {
    char path[64];
    unsigned port;
    snprintf(path, sizeof path, "%u.port", peer->copy.node);
    FILE *file = fopen(path, "r");
    if (!file) return;
    peer->has_address = fscanf(file, "%u", &port) == 1;
    if (peer->has_address) peer->at = loopback(port);
    fclose(file);
}

/* Sends again what may be lost, and at times the registers. */
static void tick(void) {
    static int ticks;
    ticks++;
    for (int at = 0; at < count; at++) {
        if (!peers[at].has_seen) {
            find(&peers[at]);
            send_to(at, BACK, life);
        } else if (at == waits_for)
            send_to(at, ASK, attempt);
        else if (at == holder)
            send_to(at, GRANT, held_for);
        else if (ticks % GOSSIP == 0)
            send_to(at, TOLD, 0);
    }
}

static int by_name(const void *a, const void *b) {
    return (int)((const struct peer *)a)->copy.node - (int)((const struct peer *)b)->copy.node;
}

static void receive(void) {
    struct message it;
    struct sockaddr_in sender;
    socklen_t size = sizeof sender;
    while (recvfrom(sock, &it, sizeof it, MSG_DONTWAIT, (struct sockaddr *)&sender, &size) == sizeof it)
        take(&it, &sender);
}

int main(int argc, char **words) {
    struct stat it;
    if (argc < 3 || argc - 2 > MOST || stat(words[1], &it)) {
        fprintf(stderr, "usage: node FOLDER NAME [NEIGHBOUR ..], at most %d names\n", MOST);
        return 2;
    }
    run = (uint64_t)it.st_ino;
    life = attempt = microseconds();
    uint32_t name = (uint32_t)atoi(words[2]);
    for (; count < argc - 2; count++) peers[count].copy.node = (uint32_t)atoi(words[count + 2]);
    qsort(peers, (size_t)count, sizeof *peers, by_name);
    while (peers[self].copy.node != name) self++;
    open_files(words[1], name);
    for (uint64_t due = 0;;) {
        if (poll(&(struct pollfd){sock, POLLIN, 0}, 1, TICK) > 0) receive();
        begin();
        if (microseconds() < due) continue;
        tick();
        due = microseconds() + 1000 * TICK;
    }
}
