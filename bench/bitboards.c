/* Counts the sequences of legal moves of international draughts over bitboards, as fast as plain C does it, to compare
 * the speed of other programs with.
 *
 *   bitboards DEPTH [POSITION]
 *
 * The position is written as W:W31,K32:B1,K2 (the side to move, then the pieces of each side); without one it is the
 * initial position. Printed are the count and the seconds that it took.
 *
 * A square is a bit; between two rows and the next two there is a bit that is no square, so that a step is a shift by 5
 * or 6 everywhere. Steps of all men are one shift, captures follow rays. At the last ply moves are counted, and not
 * played. The rules are those of draughts.c. */
#include <stdint.h>
#include <stdio.h>
#include <stdlib.h>
#include <string.h>
#include <time.h>

typedef uint64_t Set;

typedef struct {
    Set own, other, kings; /* of the side to move, of its opponent, kings of both */
    int is_white;
} Position;

typedef struct {
    Set from, to, taken;
} Move;

typedef struct {
    Move moves[512];
    int count, most; /* moves, and the pieces that each of them takes */
} List;

enum { UP_LEFT = -6, UP_RIGHT = -5, DOWN_LEFT = 5, DOWN_RIGHT = 6 };

static const int DIRECTIONS[] = {UP_LEFT, UP_RIGHT, DOWN_LEFT, DOWN_RIGHT};
static const Set SQUARES = ((1ULL << 54) - 1) & ~(1ULL << 10 | 1ULL << 21 | 1ULL << 32 | 1ULL << 43);
static const Set FIRST_ROW = 31, LAST_ROW = 31ULL << 49;

static inline Set step(Set set, int by) {
    return (by > 0 ? set << by : set >> -by) & SQUARES;
}

static void add(List *list, Move move, int taken) {
    if (taken < list->most) return;
    if (taken > list->most) list->most = taken, list->count = 0;
    for (int it = 0; it < list->count; it++)
        if (!memcmp(&list->moves[it], &move, sizeof move)) return;
    list->moves[list->count++] = move;
}

/* What a capture goes over: the pieces that may be taken, and the squares where it may land. */
typedef struct {
    Set targets, empty;
    List *list;
} Field;

/* A man that has taken these pieces goes on from a square. Returns whether it took another piece. */
static int take_on(const Field *field, Set from, Set at, Set taken, int count) {
    int goes_on = 0;
    for (int d = 0; d < 4; d++) {
        Set over = step(at, DIRECTIONS[d]) & field->targets & ~taken, land = step(over, DIRECTIONS[d]) & field->empty;
        if (!land) continue;
        goes_on = 1;
        if (!take_on(field, from, land, taken | over, count + 1))
            add(field->list, (Move){from, land, taken | over}, count + 1);
    }
    return goes_on;
}

/* The same of a king. */
static int fly_on(const Field *field, Set from, Set at, Set taken, int count) {
    int goes_on = 0;
    for (int d = 0; d < 4; d++) {
        Set over = step(at, DIRECTIONS[d]);
        while (over & field->empty) over = step(over, DIRECTIONS[d]);
        over &= field->targets & ~taken;
        Set land = step(over, DIRECTIONS[d]) & field->empty;
        for (; land; land = step(land, DIRECTIONS[d]) & field->empty) {
            goes_on = 1;
            if (!fly_on(field, from, land, taken | over, count + 1))
                add(field->list, (Move){from, land, taken | over}, count + 1);
        }
    }
    return goes_on;
}

/* The men that can take a piece. */
static Set takers(Set men, Set other, Set empty) {
    Set found = 0;
    for (int d = 0; d < 4; d++) found |= step(step(empty, -DIRECTIONS[d]) & other, -DIRECTIONS[d]) & men;
    return found;
}

static void list_captures(const Position *p, List *list) {
    Set empty = SQUARES & ~(p->own | p->other);
    list->count = list->most = 0;
    for (Set left = takers(p->own & ~p->kings, p->other, empty); left; left &= left - 1) {
        Set from = left & -left;
        Field field = {p->other, empty | from, list};
        take_on(&field, from, from, 0, 0);
    }
    for (Set left = p->own & p->kings; left; left &= left - 1) {
        Set from = left & -left;
        Field field = {p->other, empty | from, list};
        fly_on(&field, from, from, 0, 0);
    }
}

static inline int forward(const Position *p, int turn) {
    return p->is_white ? (turn ? UP_RIGHT : UP_LEFT) : (turn ? DOWN_RIGHT : DOWN_LEFT);
}

static uint64_t count_steps(const Position *p) {
    Set empty = SQUARES & ~(p->own | p->other), men = p->own & ~p->kings;
    uint64_t count = 0;
    for (int turn = 0; turn < 2; turn++) count += __builtin_popcountll(step(men, forward(p, turn)) & empty);
    for (Set left = p->own & p->kings; left; left &= left - 1)
        for (int d = 0; d < 4; d++)
            for (Set to = step(left & -left, DIRECTIONS[d]) & empty; to; to = step(to, DIRECTIONS[d]) & empty) count++;
    return count;
}

static Position after(const Position *p, Set from, Set to, Set taken) {
    Set kings = p->kings & ~taken;
    if (kings & from) kings ^= from | to;
    else kings |= to & (p->is_white ? FIRST_ROW : LAST_ROW);
    return (Position){p->other & ~taken, (p->own & ~from) | to, kings, !p->is_white};
}

static uint64_t count(const Position *p, int depth);

static uint64_t count_after_steps(const Position *p, int depth) {
    Set empty = SQUARES & ~(p->own | p->other), men = p->own & ~p->kings;
    uint64_t sum = 0;
    for (int turn = 0; turn < 2; turn++) {
        int by = forward(p, turn);
        for (Set left = step(men, by) & empty; left; left &= left - 1) {
            Set to = left & -left;
            Position next = after(p, step(to, -by), to, 0);
            sum += count(&next, depth - 1);
        }
    }
    for (Set left = p->own & p->kings; left; left &= left - 1)
        for (int d = 0; d < 4; d++)
            for (Set to = step(left & -left, DIRECTIONS[d]) & empty; to; to = step(to, DIRECTIONS[d]) & empty) {
                Position next = after(p, left & -left, to, 0);
                sum += count(&next, depth - 1);
            }
    return sum;
}

static uint64_t count(const Position *p, int depth) {
    if (!depth) return 1;
    List list;
    list_captures(p, &list);
    if (!list.count) return depth == 1 ? count_steps(p) : count_after_steps(p, depth);
    if (depth == 1) return list.count;
    uint64_t sum = 0;
    for (int it = 0; it < list.count; it++) {
        Position next = after(p, list.moves[it].from, list.moves[it].to, list.moves[it].taken);
        sum += count(&next, depth - 1);
    }
    return sum;
}

/* The bit of a square, 1 to 50. */
static Set square(int number) {
    int row = (number - 1) / 5, column = 2 * ((number - 1) % 5) + (row % 2 == 0);
    return 1ULL << (11 * row + column - 1) / 2;
}

static Position initial(void) {
    Position p = {0, 0, 0, 1};
    for (int n = 1; n <= 20; n++) p.other |= square(n), p.own |= square(51 - n);
    return p;
}

static Position read_position(const char *text) {
    Set sides[2] = {0, 0}, kings = 0;
    int side = 0;
    for (const char *at = text + 1; *at;) {
        if (*at == ':') side = at[1] == 'W', at += 2;
        else if (*at == ',') at++;
        else {
            int is_king = *at == 'K';
            Set bit = square((int)strtol(at + is_king, (char **)&at, 10));
            sides[side] |= bit;
            if (is_king) kings |= bit;
        }
    }
    int is_white = *text == 'W';
    return (Position){sides[is_white], sides[!is_white], kings, is_white};
}

int main(int words, char **word) {
    if (words < 2) return 2;
    Position p = words > 2 ? read_position(word[2]) : initial();
    struct timespec begin, end;
    clock_gettime(CLOCK_MONOTONIC, &begin);
    uint64_t found = count(&p, atoi(word[1]));
    clock_gettime(CLOCK_MONOTONIC, &end);
    printf("%llu %.6f\n", (unsigned long long)found, end.tv_sec - begin.tv_sec + 1e-9 * (end.tv_nsec - begin.tv_nsec));
}
