// load HOST PORT CONNECTIONS SECONDS FILE: sends the request in FILE again and again over so many connections, kept open, each
// once the reply before was read whole. Where FILE has ########, each request has a number of its own there. Prints replies,
// bytes of bodies, seconds, failures; of one round (SECONDS 0) each connection asks once.
#define _GNU_SOURCE
#include <arpa/inet.h>
#include <errno.h>
#include <fcntl.h>
#include <netinet/tcp.h>
#include <stdio.h>
#include <stdlib.h>
#include <string.h>
#include <strings.h>
#include <sys/epoll.h>
#include <sys/socket.h>
#include <time.h>
#include <unistd.h>

enum { HEAD = 16384, ROOM = 1 << 18, DIGITS = 8 };

struct peer {
    int socket;
    size_t sent;       // of the request
    size_t head;       // bytes of the reply's head that came
    long long left;    // bytes of the body that are to come, or -1 within the head
    int closes;
    char text[HEAD + 1];
    char request[HEAD + 1];
};

static char request[HEAD + 1], room[ROOM];
static size_t length;
static char *mark;         // where each request has its number, if it has one
static long long asked;
static struct sockaddr_in address;
static int queue, rounds_left = -1;
static long long replies, bytes, failures;

static double now(void) {
    struct timespec t;
    clock_gettime(CLOCK_MONOTONIC, &t);
    return t.tv_sec + t.tv_nsec / 1e9;
}

static void begin(struct peer *p) {
    p->sent = p->head = 0;
    p->left = -1;
    memcpy(p->request, request, length);
    if (mark) {
        long long number = asked++;
        for (int i = DIGITS; i-- > 0; number /= 10) p->request[mark - request + i] = '0' + number % 10;
    }
}

static void open_peer(struct peer *p) {
    int one = 1;
    p->socket = socket(AF_INET, SOCK_STREAM, 0);
    setsockopt(p->socket, IPPROTO_TCP, TCP_NODELAY, &one, sizeof one);
    if (connect(p->socket, (struct sockaddr *)&address, sizeof address)) {
        perror("connect");
        exit(1);
    }
    fcntl(p->socket, F_SETFL, O_NONBLOCK);
    struct epoll_event e = {.events = EPOLLIN | EPOLLOUT | EPOLLET, .data.ptr = p};
    epoll_ctl(queue, EPOLL_CTL_ADD, p->socket, &e);
    begin(p);
}

// Whether the head is whole: then left and closes are known, and what came behind it is counted.
static int read_head(struct peer *p) {
    p->text[p->head] = 0;
    char *end = strstr(p->text, "\r\n\r\n");
    if (!end) return 0;
    size_t behind = p->head - (end + 4 - p->text);
    end[2] = 0;
    char *field = strcasestr(p->text, "\r\ncontent-length:");
    if (!field || strncmp(p->text + 8, " 200", 4)) {
        failures++;
        p->closes = 1;
        p->left = 0;
        return 1;
    }
    p->closes = strcasestr(p->text, "\r\nconnection: close") != NULL;
    p->left = atoll(field + 17) - behind;
    bytes += behind;
    return 1;
}

// The reply is whole: the next is asked for. Whether there is one.
static int next(struct peer *p) {
    replies++;
    if (rounds_left > 0) {
        rounds_left--;
        close(p->socket);
        return 0;
    }
    if (p->closes) {
        close(p->socket);
        open_peer(p);
    } else {
        begin(p);
    }
    return 1;
}

static void lose(struct peer *p) {
    failures++;
    close(p->socket);
    if (rounds_left > 0) rounds_left--;
    else open_peer(p);
}

static void go_on(struct peer *p) {
    for (;;) {
        while (p->sent < length) {
            ssize_t n = write(p->socket, p->request + p->sent, length - p->sent);
            if (n < 0) {
                if (errno == EAGAIN) return;
                lose(p);
                return;
            }
            p->sent += n;
        }
        int within = p->left < 0;
        ssize_t n = within ? read(p->socket, p->text + p->head, HEAD - p->head) : read(p->socket, room, p->left < ROOM ? p->left : ROOM);
        if (n < 0 && errno == EAGAIN) return;
        if (n <= 0) {
            lose(p);
            return;
        }
        if (within) {
            p->head += n;
            if (!read_head(p)) continue;
        } else {
            p->left -= n;
            bytes += n;
        }
        if (p->left == 0 && !next(p)) return;
    }
}

int main(int count, char **words) {
    if (count != 6) return 2;
    address.sin_family = AF_INET;
    inet_pton(AF_INET, words[1], &address.sin_addr);
    address.sin_port = htons(atoi(words[2]));
    int connections = atoi(words[3]);
    double seconds = atof(words[4]);
    FILE *file = fopen(words[5], "rb");
    length = fread(request, 1, HEAD, file);
    mark = strstr(request, "########");
    queue = epoll_create1(0);
    struct peer *peers = calloc(connections, sizeof *peers);
    if (seconds == 0) rounds_left = connections;
    double start = now();
    for (int i = 0; i < connections; i++) open_peer(&peers[i]);
    while (rounds_left != 0 && (seconds == 0 ? now() - start < 120 : now() - start < seconds)) {
        struct epoll_event found[256];
        int n = epoll_wait(queue, found, 256, 100);
        for (int i = 0; i < n; i++) go_on(found[i].data.ptr);
    }
    printf("%lld %lld %.6f %lld\n", replies, bytes, now() - start, failures);
    return 0;
}
