/* Counts the lines of legal moves of international draughts over a plain mailbox board, to measure other programs by.
 *
 *   draughts DEPTH [POSITION]
 *
 * The position is written as W:W31,K32:B1,K2 (the side to move, then each side's pieces); without one it is the opening.
 * At the last ply the moves are counted, and not played. Printed are the count and the seconds that it took.
 *
 * The rules: a man takes forwards and backwards, a king over any distance; as many pieces as can be must be taken; no piece is
 * jumped twice; taken pieces leave the board when the move has ended; a man that only passes its far row stays a man. Two ways
 * from one square to another that take the same pieces are one move. */
#include <stdint.h>
#include <stdio.h>
#include <stdlib.h>
#include <string.h>
#include <time.h>

enum { EMPTY, WHITE_MAN, WHITE_KING, BLACK_MAN, BLACK_KING };

typedef struct {
    uint8_t cell[51]; /* squares 1 to 50 */
    int turn;         /* 0: White, 1: Black */
} Position;

typedef struct {
    uint8_t from, to, count;
    uint8_t taken[40];
    uint64_t taken_set;
} Move;

typedef struct {
    Move move[512];
    int count, most;
} Moves;

/* The next square up left, up right, down left and down right, 0 past the edge. */
static uint8_t next[4][51];

static void fill_next(void) {
    static const int rows[4] = {-1, -1, 1, 1}, columns[4] = {-1, 1, -1, 1};
    for (int n = 1; n <= 50; n++) {
        int row = (n - 1) / 5, column = 2 * ((n - 1) % 5) + (row % 2 == 0);
        for (int d = 0; d < 4; d++) {
            int r = row + rows[d], c = column + columns[d];
            next[d][n] = r < 0 || r > 9 || c < 0 || c > 9 ? 0 : (uint8_t)(5 * r + c / 2 + 1);
        }
    }
}

static int side_of(int piece) { return piece >= BLACK_MAN; }
static int is_king(int piece) { return piece == WHITE_KING || piece == BLACK_KING; }

static void add_capture(Moves *moves, int from, int to, const uint8_t *taken, int count, uint64_t set) {
    if (count < moves->most) return;
    if (count > moves->most) {
        moves->most = count;
        moves->count = 0;
    }
    for (int i = 0; i < moves->count; i++) {
        const Move *m = &moves->move[i];
        if (m->from == from && m->to == to && m->taken_set == set) return;
    }
    if (moves->count == 512) {
        fprintf(stderr, "too many moves\n");
        exit(3);
    }
    Move *m = &moves->move[moves->count++];
    m->from = (uint8_t)from;
    m->to = (uint8_t)to;
    m->count = (uint8_t)count;
    m->taken_set = set;
    memcpy(m->taken, taken, (size_t)count);
}

/* Goes on with a capture from a square. The piece itself is off the board. */
static void captures(const Position *p, Moves *moves, int from, int at, int king, uint8_t *taken, int count, uint64_t set) {
    int went_on = 0;
    for (int d = 0; d < 4; d++) {
        int over = next[d][at];
        if (king)
            while (over && p->cell[over] == EMPTY) over = next[d][over];
        if (!over || p->cell[over] == EMPTY || side_of(p->cell[over]) == p->turn || set >> over & 1) continue;
        int to = next[d][over];
        while (to && p->cell[to] == EMPTY) {
            went_on = 1;
            taken[count] = (uint8_t)over;
            captures(p, moves, from, to, king, taken, count + 1, set | (uint64_t)1 << over);
            if (!king) break;
            to = next[d][to];
        }
    }
    if (!went_on && count > 0) add_capture(moves, from, at, taken, count, set);
}

static void add_quiet(Moves *moves, int from, int to) {
    Move *m = &moves->move[moves->count++];
    m->from = (uint8_t)from;
    m->to = (uint8_t)to;
    m->count = 0;
    m->taken_set = 0;
}

static void quiet(const Position *p, Moves *moves, int from) {
    int king = is_king(p->cell[from]);
    int first = king ? 0 : p->turn == 0 ? 0 : 2, last = king ? 4 : first + 2;
    for (int d = first; d < last; d++) {
        int to = next[d][from];
        while (to && p->cell[to] == EMPTY) {
            add_quiet(moves, from, to);
            if (!king) break;
            to = next[d][to];
        }
    }
}

static void legal(Position *p, Moves *moves) {
    uint8_t taken[40];
    moves->count = 0;
    moves->most = 0;
    for (int n = 1; n <= 50; n++) {
        int piece = p->cell[n];
        if (piece == EMPTY || side_of(piece) != p->turn) continue;
        p->cell[n] = EMPTY;
        captures(p, moves, n, n, is_king(piece), taken, 0, 0);
        p->cell[n] = (uint8_t)piece;
    }
    if (moves->most > 0) return;
    for (int n = 1; n <= 50; n++)
        if (p->cell[n] != EMPTY && side_of(p->cell[n]) == p->turn) quiet(p, moves, n);
}

static void play(Position *p, const Move *m) {
    int piece = p->cell[m->from];
    p->cell[m->from] = EMPTY;
    for (int i = 0; i < m->count; i++) p->cell[m->taken[i]] = EMPTY;
    if (piece == WHITE_MAN && m->to <= 5) piece = WHITE_KING;
    if (piece == BLACK_MAN && m->to >= 46) piece = BLACK_KING;
    p->cell[m->to] = (uint8_t)piece;
    p->turn = !p->turn;
}

static uint64_t leaves(Position *p, int depth) {
    if (depth == 0) return 1;
    Moves moves;
    legal(p, &moves);
    if (depth == 1) return (uint64_t)moves.count;
    uint64_t count = 0;
    for (int i = 0; i < moves.count; i++) {
        Position after = *p;
        play(&after, &moves.move[i]);
        count += leaves(&after, depth - 1);
    }
    return count;
}

static int read_position(const char *text, Position *p) {
    memset(p, 0, sizeof *p);
    if (*text != 'W' && *text != 'B') return 0;
    p->turn = *text++ == 'B';
    while (*text == ':') {
        text++;
        if (*text != 'W' && *text != 'B') return 0;
        int side = *text++ == 'B';
        while (*text == 'K' || (*text >= '0' && *text <= '9') || *text == ',') {
            if (*text == ',') text++;
            int king = *text == 'K';
            if (king) text++;
            char *end;
            long n = strtol(text, &end, 10);
            if (end == text || n < 1 || n > 50) return 0;
            p->cell[n] = (uint8_t)(side ? BLACK_MAN + king : WHITE_MAN + king);
            text = end;
        }
    }
    return *text == '\0';
}

static void opening(Position *p) {
    memset(p, 0, sizeof *p);
    for (int n = 1; n <= 20; n++) p->cell[n] = BLACK_MAN;
    for (int n = 31; n <= 50; n++) p->cell[n] = WHITE_MAN;
}

int main(int argc, char **argv) {
    Position p;
    if (argc < 2 || argc > 3 || atoi(argv[1]) < 1) {
        fprintf(stderr, "usage: draughts DEPTH [POSITION]\n");
        return 2;
    }
    fill_next();
    if (argc == 3) {
        if (!read_position(argv[2], &p)) {
            fprintf(stderr, "no such position\n");
            return 2;
        }
    } else {
        opening(&p);
    }
    struct timespec begin, end;
    clock_gettime(CLOCK_MONOTONIC, &begin);
    uint64_t count = leaves(&p, atoi(argv[1]));
    clock_gettime(CLOCK_MONOTONIC, &end);
    double seconds = (double)(end.tv_sec - begin.tv_sec) + (double)(end.tv_nsec - begin.tv_nsec) / 1e9;
    printf("%llu %.6f\n", (unsigned long long)count, seconds);
    return 0;
}
