/* The same work in plain C by matrices, for the benchmark's second ratio: what pdcheck does on every input, and with the argument 'r' what
   pdrecheck does, refusals and their lines included. Written for speed, with no proof in mind; like plain.c it uses no headers.
   The triples of a symbol are one 64-bit number, row q at byte q; its heads are a byte; the moves that fit it are one matrix. A round
   redoes only the rules that use a symbol with new facts. A fact is explained once. A table is checked by inclusion of matrices. */
typedef unsigned char u8;
typedef unsigned short u16;
typedef unsigned int u32;
typedef unsigned long u64;
extern long read(int, void *, unsigned long);
extern long write(int, const void *, unsigned long);

enum { MODEL_BYTES = 16384, LISTING_BYTES = 45056, RULES = 256, MOVES = 128, MAX_RANK = 65534, ROOM = 4096, NONE = 255 };
enum { EXIT, DIRECT, CALL };
enum { TOO_LONG = 1, MALFORMED, MISPLACED, OUT_OF_RANGE, TOO_MANY }; /* the refusals of a text; 0 is none */
static u8 text[MODEL_BYTES + LISTING_BYTES + 16], out[131072]; /* behind the text stand some zeros, which belong to no word, number or line */
static long used;

/* the model */
static int G, Q, E, q0, g0, R, M;
static int started;
static u8 final, kind[RULES], top[RULES], one[RULES], two[RULES], from[MOVES], event[MOVES], to[MOVES];
static u16 shows[32];
static u64 fits[32];
/* the facts: as matrices, and with their ranks, 65535 if not held */
static u64 erases[32];
static u8 heads[32];
static u16 head[8][32], erase[8][32][8];

/* ---- matrices */
static const u64 LOW = 0x0101010101010101, DIAGONAL = 0x8040201008040201;
static int lowest(u64 set) { return __builtin_ctzl(set); }
static u64 entry(int q, int e) { return 1ul << (8 * q + e); }
static u8 row(u64 a, int q) { return a >> 8 * q; }
static u64 product(u64 a, u64 b) { /* a column of zeros and ones times a row: no byte overflows */
    u64 c = 0;
    for (int k = 0; k < 8; k++) c |= (a >> k & LOW) * (b >> 8 * k & 255);
    return c;
}
static u8 through(u8 set, u64 b) { /* the rows of the set's states, joined */
    u64 c = (((set * LOW & DIAGONAL) + 127 * LOW) >> 7 & LOW) * 255 & b;
    c |= c >> 32; c |= c >> 16;
    return c | c >> 8;
}

/* ---- printing */
static void put(const char *s) { while (*s) out[used++] = *s++; }
static int digits(u32 n) { return n < 10 ? 1 : n < 100 ? 2 : n < 1000 ? 3 : n < 10000 ? 4 : 5; } /* no number printed has more */
static void put_number(u32 n) {
    int k = digits(n);
    for (int i = k - 1; i >= 0; i--, n /= 10) out[used + i] = '0' + n % 10;
    used += k;
}
static void put_field(u32 n) { put("\t"); put_number(n); }
static int refuse(int number, int line) { put("refused"); put_field(number); put_field(line); put("\n"); return 0; }

/* ---- reading: a part moves the place behind itself if it stands there */
static u8 *at;

static int word(const char *s) { /* with the tab behind it */
    unsigned long n = __builtin_strlen(s);
    if (__builtin_memcmp(at, s, n) || at[n] != '\t') return 0;
    at += n + 1;
    return 1;
}

static int is_digit(u8 c) { return c >= '0' && c <= '9'; }

static int number(int *value) { /* one to five digits with no leading zero */
    u8 *first = at;
    u32 n = 0;
    while (is_digit(*at)) n = n * 10 + *at++ - '0';
    long length = at - first;
    *value = n;
    return length == 1 || (length > 1 && length <= 5 && *first != '0');
}

static int fields(int count, int *value) { /* the rest of a line */
    for (int i = 0; i < count; i++) if (!number(value + i) || *at++ != (i + 1 < count ? '\t' : '\n')) return 0;
    return 1;
}

/* ---- the model text: each line's reading gives its refusal */
static int model_fields(int count, int *value) { return !fields(count, value) ? MALFORMED : !G ? MISPLACED : 0; }

static int read_size(void) {
    int v[3];
    if (!fields(3, v)) return MALFORMED;
    if (G) return MISPLACED;
    if (v[0] < 1 || v[0] > 32 || v[1] < 1 || v[1] > 8 || v[2] < 1 || v[2] > 16) return OUT_OF_RANGE;
    G = v[0]; Q = v[1]; E = v[2];
    for (int g = 0; g < G; g++) shows[g] = 1;
    return 0;
}

static int read_start(void) {
    int v[2], bad = model_fields(2, v);
    if (bad) return bad;
    if (started) return MISPLACED;
    if (v[0] >= Q || v[1] >= G) return OUT_OF_RANGE;
    q0 = v[0]; g0 = v[1]; started = 1;
    return 0;
}

static int read_final(void) {
    int q, bad = model_fields(1, &q);
    if (bad) return bad;
    if (q >= Q) return OUT_OF_RANGE;
    final |= 1 << q;
    return 0;
}

static int read_event(void) {
    int v[2], bad = model_fields(2, v);
    if (bad) return bad;
    if (v[0] >= G || v[1] >= E) return OUT_OF_RANGE;
    shows[v[0]] |= 1 << v[1];
    return 0;
}

static int read_rule(int k) {
    int v[3] = { 0 }, bad = model_fields(k + 1, v);
    if (bad) return bad;
    if (v[0] >= G || v[1] >= G || v[2] >= G) return OUT_OF_RANGE;
    if (R == RULES) return TOO_MANY;
    kind[R] = k; top[R] = v[0]; one[R] = v[1]; two[R++] = v[2];
    return 0;
}

static int read_move(void) {
    int v[3], bad = model_fields(3, v);
    if (bad) return bad;
    if (v[0] >= Q || v[1] >= E || v[2] >= Q) return OUT_OF_RANGE;
    if (M == MOVES) return TOO_MANY;
    from[M] = v[0]; event[M] = v[1]; to[M++] = v[2];
    return 0;
}

static int read_model_line(void) {
    if (word("call")) return read_rule(CALL);
    if (word("direct")) return read_rule(DIRECT);
    if (word("exit")) return read_rule(EXIT);
    if (word("move")) return read_move();
    if (word("event")) return read_event();
    if (word("final")) return read_final();
    if (word("start")) return read_start();
    if (word("size")) return read_size();
    return MALFORMED;
}

static int read_model(u8 *end) { /* whether it is not refused */
    int bad;
    if (end - text > MODEL_BYTES) return refuse(TOO_LONG, 0);
    at = text;
    for (int line = 1; at < end; line++) if ((bad = read_model_line())) return refuse(bad, line);
    return started || refuse(MISPLACED, 0);
}

/* ---- the listing text: into matrices; ranks are tested and passed over */
static int said_heads, said_erases; /* the counts of its first line */

static u8 *split(u8 *end) { /* the first line that starts with `safe`, or the end */
    u8 *line = text;
    while (line < end && __builtin_memcmp(line, "safe", 4)) {
        while (line < end && *line != '\n') line++;
        line++;
    }
    return line < end ? line : end;
}

static int read_safe(int line) {
    int v[3];
    if (!fields(3, v)) return MALFORMED;
    if (line > 1) return MISPLACED;
    if (v[0] > MAX_RANK) return OUT_OF_RANGE;
    said_heads = v[1]; said_erases = v[2];
    return 0;
}

static int read_head(int line) {
    int v[3];
    if (!fields(3, v)) return MALFORMED;
    if (line == 1) return MISPLACED;
    if (v[0] >= Q || v[1] >= G) return OUT_OF_RANGE;
    if (heads[v[1]] >> v[0] & 1) return MISPLACED;
    if (v[2] > MAX_RANK) return OUT_OF_RANGE;
    heads[v[1]] |= 1 << v[0];
    return 0;
}

static int read_erase(int line) {
    int v[4];
    if (!fields(4, v)) return MALFORMED;
    if (line == 1) return MISPLACED;
    if (v[0] >= Q || v[1] >= G || v[2] >= Q) return OUT_OF_RANGE;
    u64 fact = entry(v[0], v[2]);
    if (erases[v[1]] & fact) return MISPLACED;
    if (v[3] > MAX_RANK) return OUT_OF_RANGE;
    erases[v[1]] |= fact;
    return 0;
}

static int read_listing_line(int line) {
    if (word("erase")) return read_erase(line);
    if (word("head")) return read_head(line);
    if (word("safe")) return read_safe(line);
    return MALFORMED;
}

static int count_heads(void) { int n = 0; for (int g = 0; g < G; g++) n += __builtin_popcount(heads[g]); return n; }
static int count_erases(void) { int n = 0; for (int g = 0; g < G; g++) n += __builtin_popcountl(erases[g]); return n; }

static int read_listing(u8 *listing, u8 *end) { /* whether it is not refused */
    int bad;
    if (end - listing > LISTING_BYTES) return refuse(TOO_LONG, 0);
    at = listing;
    for (int line = 1; at < end; line++) if ((bad = read_listing_line(line))) return refuse(bad, line);
    if (listing == end || said_heads != count_heads() || said_erases != count_erases()) return refuse(MISPLACED, 0);
    return 1;
}

/* ---- deciding */
static u32 exits; /* the symbols with an exit */
static u16 by_top[32], by_one[32], by_two[32]; /* lists of the other rules by each of their symbols: the first one's number and 1; 0 at the end */
static u16 next_top[256], next_one[256], next_two[256];
static u64 rests[32], more_rests[32]; /* what the rules of g leave to be erased after their step, joined; what this round adds to it */
static u64 more_erases[32];
static u8 landed[32], more_heads[32]; /* the states after a step from the heads of g */
static u32 touched_rests, touched_erases, touched_heads; /* the symbols to which this round adds */
static u32 changed_erases, changed_heads; /* those to which the last round added */
static int violating;

static void fit_moves(void) {
    u64 on[16] = { 0 };
    for (int v = 0; v < M; v++) on[event[v]] |= entry(from[v], to[v]);
    for (int g = 0; g < G; g++) for (u32 s = shows[g]; s; s &= s - 1) fits[g] |= on[lowest(s)];
}

static void put_rule(int r, u16 *first, u16 *next) { next[r] = *first; *first = r + 1; }

static void list_rules(void) {
    for (int r = 0; r < R; r++) {
        if (kind[r] == EXIT) { exits |= 1u << top[r]; continue; }
        put_rule(r, by_top + top[r], next_top);
        put_rule(r, by_one + one[r], next_one);
        if (kind[r] == CALL) put_rule(r, by_two + two[r], next_two);
    }
}

static void give_heads(int g, u8 set) {
    u8 fresh = set & ~heads[g];
    if (fresh) { more_heads[g] |= fresh; touched_heads |= 1u << g; }
}

static void give_erases(int g, u64 set) {
    u64 fresh = set & ~erases[g];
    if (fresh) { more_erases[g] = fresh; touched_erases |= 1u << g; }
}

static void give_rest(int g, u64 rest) {
    u64 fresh = rest & ~rests[g];
    if (fresh) { more_rests[g] |= fresh; touched_rests |= 1u << g; }
}

static void erase_two(int r) { if (erases[one[r]] && erases[two[r]]) give_rest(top[r], product(erases[one[r]], erases[two[r]])); }
static void return_to(int r) { if (landed[top[r]]) give_heads(two[r], through(landed[top[r]], erases[one[r]])); }

/* What the rules give that use x's triples, of which some are new. A call whose two symbols both have new ones is taken once. */
static void use_erases(int x) {
    for (int i = by_one[x]; i; i = next_one[i - 1]) {
        int r = i - 1;
        if (kind[r] == DIRECT) give_rest(top[r], erases[x]);
        else { erase_two(r); return_to(r); }
    }
    for (int i = by_two[x]; i; i = next_two[i - 1]) if (!(changed_erases >> one[i - 1] & 1)) erase_two(i - 1);
}

/* What the rules give that use g's heads, of which some are new. */
static void use_heads(int g) {
    if (landed[g]) for (int i = by_top[g]; i; i = next_top[i - 1]) {
        int r = i - 1;
        give_heads(one[r], landed[g]);
        if (kind[r] == CALL) return_to(r);
    }
}

static void settle_rest(int g) {
    give_erases(g, product(fits[g], more_rests[g]));
    rests[g] |= more_rests[g];
    more_rests[g] = 0;
}

static void round(void) {
    for (u32 s = changed_erases; s; s &= s - 1) use_erases(lowest(s));
    for (u32 s = changed_heads; s; s &= s - 1) use_heads(lowest(s));
    for (u32 s = touched_rests; s; s &= s - 1) settle_rest(lowest(s));
    touched_rests = 0;
}

static void keep_heads(int n) {
    for (u32 s = touched_heads; s; s &= s - 1) {
        int g = lowest(s);
        u8 fresh = more_heads[g];
        more_heads[g] = 0;
        heads[g] |= fresh;
        landed[g] = through(heads[g], fits[g]);
        if (fresh & final) violating = 1;
        for (; fresh; fresh &= fresh - 1) head[lowest(fresh)][g] = n;
    }
    changed_heads = touched_heads;
    touched_heads = 0;
}

static void keep_erases(int n) {
    for (u32 s = touched_erases; s; s &= s - 1) {
        int g = lowest(s);
        u64 fresh = more_erases[g];
        erases[g] |= fresh;
        if (g == g0 && row(fresh, q0) & final) violating = 1;
        for (; fresh; fresh &= fresh - 1) erase[lowest(fresh) >> 3][g][lowest(fresh) & 7] = n;
    }
    changed_erases = touched_erases;
    touched_erases = 0;
}

static void begin(void) {
    __builtin_memset(head, 255, sizeof head);
    __builtin_memset(erase, 255, sizeof erase);
    fit_moves();
    list_rules();
    give_heads(g0, 1 << q0);
    keep_heads(0);
    for (u32 s = exits; s; s &= s - 1) give_erases(lowest(s), fits[lowest(s)]); /* of round 1 */
}

/* The rounds of the verdict: a violation if `violating`. */
static __attribute__((noinline)) int decide(void) {
    int n = 0;
    begin();
    while (!violating) {
        n++;
        round();
        if (!(touched_heads | touched_erases)) break;
        keep_heads(n);
        keep_erases(n);
    }
    return n;
}

/* ---- the trace */
static u64 rules_of[32][4], rules_to[32][4], moves_of[8][2]; /* sets: the rules with g on top, those that bring g, the moves from q */
static u16 steps[ROOM], place[8][32][8], size[8][32][8]; /* the trace; where in it a triple's steps stand, and how many they are */
static int count;
struct why { int rule, move, middle; };

static void sort_steps(void) {
    for (int r = 0; r < R; r++) {
        u64 bit = 1ul << (r & 63);
        rules_of[top[r]][r >> 6] |= bit;
        if (kind[r] > EXIT) rules_to[one[r]][r >> 6] |= bit;
        if (kind[r] > DIRECT) rules_to[two[r]][r >> 6] |= bit;
    }
    for (int v = 0; v < M; v++) moves_of[from[v]][v >> 6] |= 1ul << (v & 63);
}

/* The first move that fits g, from one of these states to one of those. */
static int first_move(int g, u8 sources, u8 targets) {
    for (int k = 0; k < 2; k++) {
        u64 set = 0;
        for (u32 s = sources; s; s &= s - 1) set |= moves_of[lowest(s)][k];
        for (; set; set &= set - 1) {
            int v = 64 * k + lowest(set);
            if (shows[g] >> event[v] & 1 && targets >> to[v] & 1) return v;
        }
    }
    return NONE;
}

/* The states from which g is erased into e at a rank below n; the states in which g is reached below n; the ends of g from q below n. */
static u8 starts_below(int g, int e, int n) { u8 set = 0; for (int q = 0; q < Q; q++) set |= (erase[q][g][e] < n) << q; return set; }
static u8 heads_below(int g, int n) { u8 set = 0; for (int q = 0; q < Q; q++) set |= (head[q][g] < n) << q; return set; }
static u8 ends_below(int q, int g, int n) { u8 set = 0; for (int e = 0; e < Q; e++) set |= (erase[q][g][e] < n) << e; return set; }

/* The states from which what the rule leaves on the stack is erased into e below n. */
static u8 rest_below(int r, int e, int n) {
    if (kind[r] == EXIT) return 1 << e;
    if (kind[r] == DIRECT) return starts_below(one[r], e, n);
    u8 set = 0, middles = starts_below(two[r], e, n);
    if (middles) for (int p = 0; p < Q; p++) if (ends_below(p, one[r], n) & middles) set |= 1 << p;
    return set;
}

static struct why explain_erase(int q, int g, int e) {
    int n = erase[q][g][e];
    u8 next = row(fits[g], q);
    for (int k = 0; k < 4; k++) for (u64 s = rules_of[g][k]; s; s &= s - 1) {
        int r = 64 * k + lowest(s);
        u8 targets = rest_below(r, e, n) & next;
        if (!targets) continue;
        int v = first_move(g, 1 << q, targets);
        return (struct why){ r, v, kind[r] == CALL ? lowest(ends_below(to[v], one[r], n) & starts_below(two[r], e, n)) : 0 };
    }
    return (struct why){ 0, 0, 0 };
}

static struct why explain_head(int q, int g) {
    int n = head[q][g];
    for (int k = 0; k < 4; k++) for (u64 s = rules_to[g][k]; s; s &= s - 1) {
        int r = 64 * k + lowest(s);
        u8 sources = heads_below(top[r], n), targets = 0;
        if (!sources) continue;
        if (one[r] == g) targets = 1 << q;
        if (kind[r] == CALL && two[r] == g) targets |= starts_below(one[r], q, n);
        if (through(sources, fits[top[r]]) & targets) return (struct why){ r, first_move(top[r], sources, targets), 0 };
    }
    return (struct why){ 0, 0, 0 };
}

static int store(int r, int v) { if (count == ROOM) return 0; steps[count++] = r * 128 + v; return 1; }

static int copy(int from, int size) {
    int room = ROOM - count, fit = size < room ? size : room;
    __builtin_memcpy(steps + count, steps + from, fit * sizeof *steps);
    count += fit;
    return fit == size;
}

/* Whether the steps of the triple fit. If they stand in the trace already, they are copied: no fact is explained twice. */
static int unfold_erase(int q, int g, int e) {
    if (size[q][g][e]) return copy(place[q][g][e], size[q][g][e]);
    struct why why = explain_erase(q, g, e);
    int r = why.rule, p = to[why.move], start = count;
    if (!store(r, why.move)) return 0;
    if (kind[r] == DIRECT && !unfold_erase(p, one[r], e)) return 0;
    if (kind[r] == CALL && !(unfold_erase(p, one[r], why.middle) && unfold_erase(why.middle, two[r], e))) return 0;
    place[q][g][e] = start;
    size[q][g][e] = count - start;
    return 1;
}

static int unfold_head(int q, int g) { /* each is asked once */
    if (head[q][g] == 0) return 1;
    struct why why = explain_head(q, g);
    int r = why.rule, v = why.move;
    if (!unfold_head(from[v], top[r]) || !store(r, v)) return 0;
    return (one[r] == g && to[v] == q) || unfold_erase(to[v], one[r], q);
}

static int trace(void) {
    sort_steps();
    for (int q = 0; q < Q; q++) if (final >> q & 1) for (int g = 0; g < G; g++) if (heads[g] >> q & 1) return unfold_head(q, g);
    return unfold_erase(q0, g0, lowest(row(erases[g0], q0) & final));
}

/* ---- the answer of pdcheck */
static void put_kind(int k) { if (k == CALL) put("\tcall\n"); else if (k == DIRECT) put("\tdirect\n"); else put("\texit\n"); }

static void print_trace(int n) {
    int whole = trace();
    put("violation"); put_field(n);
    if (whole) put_field(count); else put("\tcut");
    put("\n");
    for (int i = 0; i < count; i++) {
        int r = steps[i] / 128, v = steps[i] % 128;
        put("step"); put_field(i + 1); put_field(r); put_field(v); put_field(to[v]); put_kind(kind[r]);
    }
}

static void print_safe(int n) {
    put("safe"); put_field(n); put_field(count_heads()); put_field(count_erases()); put("\n");
    for (int q = 0; q < Q; q++) for (int g = 0; g < G; g++) if (heads[g] >> q & 1) {
        put("head"); put_field(q); put_field(g); put_field(head[q][g]); put("\n");
    }
    for (int q = 0; q < Q; q++) for (int g = 0; g < G; g++) for (u32 s = row(erases[g], q); s; s &= s - 1) {
        int e = lowest(s);
        put("erase"); put_field(q); put_field(g); put_field(e); put_field(erase[q][g][e]); put("\n");
    }
}

static void check(u8 *end) {
    if (!read_model(end)) return;
    int n = decide();
    if (violating) print_trace(n); else print_safe(n);
}

/* ---- the table check: all rules by matrices, and one by one only if that fails */
static int table_closed(void) {
    for (int g = 0; g < G; g++) landed[g] = through(heads[g], fits[g]);
    for (int r = 0; r < R; r++) {
        int g = top[r];
        if (kind[r] == EXIT) { rests[g] |= DIAGONAL; continue; }
        u64 rest = erases[one[r]];
        if (landed[g] & ~heads[one[r]]) return 0;
        if (kind[r] == CALL) {
            if (through(landed[g], rest) & ~heads[two[r]]) return 0;
            rest = product(rest, erases[two[r]]);
        }
        rests[g] |= rest;
    }
    for (int g = 0; g < G; g++) if (product(fits[g], rests[g]) & ~erases[g]) return 0;
    return 1;
}

static int closed(int r, int v) {
    int q = from[v], p = to[v], g = top[r], reached = heads[g] >> q & 1;
    u8 ends = row(erases[g], q), middles = row(erases[one[r]], p);
    if (!(shows[g] >> event[v] & 1)) return 1;
    if (kind[r] == EXIT) return ends >> p & 1;
    if (reached && !(heads[one[r]] >> p & 1)) return 0;
    if (kind[r] == DIRECT) return !(middles & ~ends);
    return !(reached && middles & ~heads[two[r]]) && !(through(middles, erases[two[r]]) & ~ends);
}

static void refuse_table(int reason, int r, int v) { put("refused\t11"); put_field(reason); put_field(r); put_field(v); put("\n"); }

static void refuse_first(void) {
    for (int r = 0; r < R; r++) for (int v = 0; v < M; v++) if (!closed(r, v)) { refuse_table(3, r, v); return; }
}

static void check_table(void) {
    u8 reached = 0;
    for (int g = 0; g < G; g++) reached |= heads[g];
    fit_moves();
    if (!(heads[g0] >> q0 & 1)) refuse_table(1, 0, 0);
    else if ((reached | row(erases[g0], q0)) & final) refuse_table(2, 0, 0);
    else if (!table_closed()) refuse_first();
    else put("accepted\n");
}

static void recheck(u8 *end) {
    u8 *listing = split(end);
    if (read_model(listing) && read_listing(listing, end)) check_table();
}

int main(int argc, char **argv) {
    (void)argv;
    int again = argc > 1;
    long got, length = 0, room = MODEL_BYTES + 1 + (again ? LISTING_BYTES : 0); /* a byte more than the texts may have */
    while (length < room && (got = read(0, text + length, room - length)) > 0) length += got;
    if (again) recheck(text + length); else check(text + length);
    for (long done = 0; done < used && (got = write(1, out + done, used - done)) > 0;) done += got;
    return 0;
}
