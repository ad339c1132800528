/* Sends requests to a server of games as many clients at once do, one connection for each, and measures the replies.

   load PORT get CLIENTS EACH GAME                   each client asks for the game so often
   load PORT post CLIENTS EACH GAME MOVES            client K plays the moves of the file MOVES, a word each, in game
                                                     GAME + K

   Prints the requests a second, and the middle, the hundredth longest and the longest of their milliseconds; and how
   many were not answered by 200. */
#include <arpa/inet.h>
#include <netinet/tcp.h>
#include <pthread.h>
#include <stdio.h>
#include <stdlib.h>
#include <string.h>
#include <sys/socket.h>
#include <time.h>
#include <unistd.h>

enum { MOST_MOVES = 1000, REPLY_BYTES = 1 << 17 };

static int port, clients, each, first_game, is_post;
static char moves[MOST_MOVES][16];

typedef struct {
    int number, answered, refused;
    double *seconds;
} Client;

static double now(void) {
    struct timespec it;
    clock_gettime(CLOCK_MONOTONIC, &it);
    return it.tv_sec + it.tv_nsec / 1e9;
}

static int joined(void) {
    struct sockaddr_in address = {.sin_family = AF_INET, .sin_port = htons(port)};
    struct timeval patience = {60, 0};
    int one = 1, server = socket(AF_INET, SOCK_STREAM, 0);
    address.sin_addr.s_addr = htonl(INADDR_LOOPBACK);
    setsockopt(server, SOL_SOCKET, SO_RCVTIMEO, &patience, sizeof patience);
    setsockopt(server, IPPROTO_TCP, TCP_NODELAY, &one, sizeof one);
    if (connect(server, (void *)&address, sizeof address)) return close(server), -1;
    return server;
}

static void request(char *text, size_t room, int game, int ply) {
    char body[64];
    if (!is_post) {
        snprintf(text, room, "GET /games/%d HTTP/1.1\r\nHost: c\r\nMember-Key: keyanna1\r\n\r\n", game);
        return;
    }
    snprintf(body, sizeof body, "{\"move\":\"%.15s\"}", moves[ply - 1]);
    snprintf(text, room,
             "POST /games/%d/moves/%d HTTP/1.1\r\nHost: c\r\nMember-Key: %s\r\nContent-Length: %zu\r\n\r\n%s",
             game, ply, ply % 2 ? "keyanna1" : "keybert2", strlen(body), body);
}

/* Whether the request was answered by 200, to the end of the connection. */
static int ask(const char *text, char *reply) {
    int server = joined();
    if (server < 0) return 0;
    size_t length = strlen(text), got = 0;
    ssize_t more = write(server, text, length) == (ssize_t)length ? 1 : -1;
    while (more > 0 && got < REPLY_BYTES - 1) {
        more = read(server, reply + got, REPLY_BYTES - 1 - got);
        got += more > 0 ? more : 0;
    }
    close(server);
    reply[got] = 0;
    return more == 0 && !strncmp(reply, "HTTP/1.1 200", 12);
}

static void *run(void *given) {
    Client *client = given;
    char text[512], *reply = malloc(REPLY_BYTES);
    for (int turn = 1; turn <= each; turn++) {
        request(text, sizeof text, first_game + (is_post ? client->number : 0), turn);
        double began = now();
        if (ask(text, reply)) client->seconds[client->answered++] = now() - began;
        else client->refused++;
    }
    free(reply);
    return 0;
}

static int by_size(const void *one, const void *other) {
    double a = *(const double *)one, b = *(const double *)other;
    return (a > b) - (a < b);
}

static void read_moves(const char *path) {
    FILE *file = fopen(path, "r");
    for (int at = 0; file && at < MOST_MOVES && fscanf(file, "%15s", moves[at]) == 1; at++) {}
    if (file) fclose(file);
}

int main(int count, char **words) {
    if (count < 6) return 2;
    port = atoi(words[1]), is_post = !strcmp(words[2], "post"), clients = atoi(words[3]), each = atoi(words[4]);
    first_game = atoi(words[5]);
    if (is_post) read_moves(words[6]);
    Client *all = calloc(clients, sizeof *all);
    pthread_t *threads = calloc(clients, sizeof *threads);
    double began = now(), *seconds = malloc(sizeof(double) * clients * each);
    for (int it = 0; it < clients; it++) {
        all[it] = (Client){.number = it, .seconds = malloc(sizeof(double) * each)};
        pthread_create(&threads[it], 0, run, &all[it]);
    }
    int answered = 0, refused = 0;
    for (int it = 0; it < clients; it++) {
        pthread_join(threads[it], 0);
        memcpy(seconds + answered, all[it].seconds, sizeof(double) * all[it].answered);
        answered += all[it].answered, refused += all[it].refused;
    }
    double took = now() - began;
    qsort(seconds, answered, sizeof *seconds, by_size);
    if (!answered) return printf("0 0 0 0 %d\n", refused), 0;
    printf("%.0f %.2f %.2f %.2f %d\n", answered / took, seconds[answered / 2] * 1e3, seconds[answered * 99 / 100] * 1e3,
           seconds[answered - 1] * 1e3, refused);
}
