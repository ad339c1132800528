/* A server of games in C over sqlite3, to compare ours with: one connection for each request, one after another.

   server_peer FILE PORT    FILE is a club's, of schema 2; GET /games/N and POST /games/N/moves/PLY as docs/http.md has
                            them

   It knows no rules and refuses nothing but an unknown key: it reads the rows that our server reads, writes those that
   ours writes by one commit, and replies with about as much. SYNC in the environment is run in place of
   `PRAGMA synchronous = FULL`. */
#define _GNU_SOURCE
#include <arpa/inet.h>
#include <sqlite3.h>
#include <stdio.h>
#include <stdlib.h>
#include <string.h>
#include <sys/socket.h>
#include <unistd.h>

enum { REQUEST_BYTES = 8192, REPLY_BYTES = 1 << 17 };

static sqlite3 *base;

static void fail(const char *what) {
    fprintf(stderr, "%s: %s\n", what, sqlite3_errmsg(base));
    exit(1);
}

static void run(const char *text) {
    if (sqlite3_exec(base, text, 0, 0, 0)) fail(text);
}

static sqlite3_stmt *prepared(const char *text) {
    sqlite3_stmt *it;
    if (sqlite3_prepare_v2(base, text, -1, &it, 0)) fail(text);
    return it;
}

static int reply(char *out, const char *status, const char *body) {
    return snprintf(out, REPLY_BYTES, "HTTP/1.1 %s\r\nContent-Type: application/json\r\nContent-Length: %zu\r\n"
                    "Connection: close\r\n\r\n%s", status, strlen(body), body);
}

/* The text of a column of the one row that has this number. */
static void text_of(sqlite3_stmt *by_number, int number, char *text, size_t room) {
    sqlite3_bind_int(by_number, 1, number);
    int found = sqlite3_step(by_number) == SQLITE_ROW;
    snprintf(text, room, "%s", found ? (const char *)sqlite3_column_text(by_number, 0) : "");
    sqlite3_reset(by_number);
}

static int is_member(const char *request) {
    static sqlite3_stmt *by_key;
    if (!by_key) by_key = prepared("SELECT id FROM members WHERE \"key\" = ?1");
    char key[80] = "";
    const char *field = strcasestr(request, "member-key:");
    if (field) sscanf(field + 11, " %79[^\r]", key);
    sqlite3_bind_text(by_key, 1, key, -1, SQLITE_TRANSIENT);
    int found = sqlite3_step(by_key) == SQLITE_ROW;
    sqlite3_reset(by_key);
    return found;
}

static int show(int game, char *out) {
    static sqlite3_stmt *row, *event, *member, *moves;
    if (!row) {
        row = prepared("SELECT event, first, second, left1, left2, position FROM games WHERE id = ?1");
        event = prepared("SELECT name FROM events WHERE id = ?1");
        member = prepared("SELECT name FROM members WHERE id = ?1");
        moves = prepared("SELECT text FROM moves WHERE game = ?1 ORDER BY ply");
    }
    static char body[REPLY_BYTES - 256];
    char names[3][64], position[512];
    sqlite3_bind_int(row, 1, game);
    if (sqlite3_step(row) != SQLITE_ROW) {
        sqlite3_reset(row);
        return reply(out, "404 Not Found", "{}");
    }
    int ids[3] = {sqlite3_column_int(row, 0), sqlite3_column_int(row, 1), sqlite3_column_int(row, 2)};
    long long left[2] = {sqlite3_column_int64(row, 3), sqlite3_column_int64(row, 4)};
    snprintf(position, sizeof position, "%s", sqlite3_column_text(row, 5));
    sqlite3_reset(row);
    for (int it = 0; it < 3; it++) text_of(it ? member : event, ids[it], names[it], sizeof names[it]);
    int at = sprintf(body,
                     "{\"end\":null,\"event\":\"%s\",\"first\":\"%s\",\"game\":%d,\"left\":[%lld,%lld],\"moves\":[",
                     names[0], names[1], game, left[0], left[1]);
    int ply = 0;
    sqlite3_bind_int(moves, 1, game);
    for (; sqlite3_step(moves) == SQLITE_ROW; ply++)
        at += sprintf(body + at, "%s\"%s\"", ply ? "," : "", sqlite3_column_text(moves, 0));
    sqlite3_reset(moves);
    sprintf(body + at, "],\"offer\":null,\"ply\":%d,\"position\":\"%s\",\"result\":null,\"second\":\"%s\"}", ply,
            position, names[2]);
    return reply(out, "200 OK", body);
}

static void put(sqlite3_stmt *it) {
    if (sqlite3_step(it) != SQLITE_DONE) fail("a row is not put");
    sqlite3_reset(it);
}

static int move(int game, int ply, const char *request, char *out) {
    static sqlite3_stmt *row, *into_moves, *into_seen, *games, *meta, *begin, *commit;
    if (!row) {
        row = prepared("SELECT position FROM games WHERE id = ?1");
        into_moves = prepared("INSERT INTO moves (game, ply, text, moment, \"left\", position) "
                              "VALUES (?1, ?2, ?3, 1000, 86400, ?4)");
        into_seen = prepared("INSERT INTO seen (game, position, count, first_ply) VALUES (?1, ?2, 1, ?3) "
                             "ON CONFLICT (game, position) DO UPDATE SET count = count + 1");
        games = prepared("UPDATE games SET plies = ?1, since = 1000, position = ?2 WHERE id = ?3");
        meta = prepared("UPDATE meta SET last = 1000");
        begin = prepared("BEGIN");
        commit = prepared("COMMIT");
    }
    char text[40] = "", position[512], seen[560], body[1024];
    const char *given = strstr(request, "\"move\"");
    if (given) sscanf(given + 6, " : \"%39[^\"]", text);
    text_of(row, game, position, sizeof position);
    snprintf(seen, sizeof seen, "%s %d", position, ply);
    put(begin);
    sqlite3_bind_int(into_moves, 1, game), sqlite3_bind_int(into_moves, 2, ply);
    sqlite3_bind_text(into_moves, 3, text, -1, SQLITE_STATIC);
    sqlite3_bind_text(into_moves, 4, position, -1, SQLITE_STATIC);
    put(into_moves);
    sqlite3_bind_int(into_seen, 1, game), sqlite3_bind_int(into_seen, 3, ply);
    sqlite3_bind_text(into_seen, 2, seen, -1, SQLITE_STATIC);
    put(into_seen);
    sqlite3_bind_int(games, 1, ply), sqlite3_bind_int(games, 3, game);
    sqlite3_bind_text(games, 2, position, -1, SQLITE_STATIC);
    put(games);
    put(meta);
    put(commit);
    snprintf(body, sizeof body,
             "{\"end\":null,\"game\":%d,\"left\":86400,\"move\":\"%s\",\"ply\":%d,\"position\":\"%s\"}",
             game, text, ply, position);
    return reply(out, "200 OK", body);
}

static int answer(const char *request, char *out) {
    int game = 0, ply = 0;
    if (!is_member(request)) return reply(out, "401 Unauthorized", "{}");
    if (sscanf(request, "GET /games/%d", &game) == 1) return show(game, out);
    if (sscanf(request, "POST /games/%d/moves/%d", &game, &ply) == 2) return move(game, ply, request, out);
    return reply(out, "404 Not Found", "{}");
}

static int is_whole(const char *request, int length) {
    const char *end = strstr(request, "\r\n\r\n");
    if (!end) return 0;
    const char *field = strcasestr(request, "content-length:");
    return length >= end + 4 - request + (field && field < end ? atoi(field + 15) : 0);
}

static void serve(int peer) {
    static char request[REQUEST_BYTES], out[REPLY_BYTES];
    int length = 0;
    request[0] = 0;
    while (!is_whole(request, length)) {
        int read_now = read(peer, request + length, sizeof request - 1 - length);
        if (read_now <= 0) return;
        length += read_now;
        request[length] = 0;
    }
    int size = answer(request, out);
    if (write(peer, out, size) != size) perror("write");
}

int main(int count, char **words) {
    if (count != 3 || sqlite3_open(words[1], &base)) return 2;
    run("PRAGMA journal_mode = WAL");
    run(getenv("SYNC") ? getenv("SYNC") : "PRAGMA synchronous = FULL");
    int one = 1, listener = socket(AF_INET, SOCK_STREAM, 0);
    struct sockaddr_in address = {.sin_family = AF_INET, .sin_port = htons(atoi(words[2]))};
    address.sin_addr.s_addr = htonl(INADDR_LOOPBACK);
    setsockopt(listener, SOL_SOCKET, SO_REUSEADDR, &one, sizeof one);
    if (bind(listener, (void *)&address, sizeof address) || listen(listener, 128)) return perror("bind"), 1;
    printf("listening\n");
    fflush(stdout);
    for (;;) {
        int peer = accept(listener, 0, 0);
        if (peer < 0) continue;
        serve(peer);
        close(peer);
    }
}
