/* The same decision in plain C, for the benchmark's ratios: reads a model, runs the rounds as the description words them, and prints
   what pdcheck prints; with a listing behind the model and the argument 'r' it does what pdrecheck does. It trusts its input to be well
   formed, proves nothing, and keeps the naive rounds on purpose. Built without headers: the few declarations it needs stand here. */
typedef unsigned char u8;
typedef unsigned short u16;
extern long read(int, void *, unsigned long);
extern long write(int, const void *, unsigned long);

enum { ABSENT = 65535, ROOM = 4096 };
static u8 text[61441], out[131072];
static long length, place, used;
static int G, Q, E, q0, g0, R, M;
static u8 final[8], shows[32][16], kind[256], top[256], one[256], two[256], from[128], event[128], to[128];
static u16 head[8][32], erase[8][32][8], steps[ROOM];
static long count;

static int number(void) { int n = 0; while (text[place] >= '0') n = n * 10 + text[place++] - '0'; return n; }
static int field(void) { place++; return number(); }
static void line(void) { while (text[place] != '\n') place++; place++; }
static void word(void) { while (text[place] != '\t') place++; }
static void put(const char *s) { while (*s) out[used++] = *s++; }
static void put_number(long n) { char d[20]; int k = 0; do d[k++] = '0' + n % 10; while (n /= 10); while (k) out[used++] = d[--k]; }
static void put_field(long n) { out[used++] = '\t'; put_number(n); }

static void read_model(void) {
    while (place < length) {
        u8 a = text[place], b = text[place + 1];
        if (a == 's' && b == 'a') return;
        word();
        if (a == 's' && b == 'i') { G = field(); Q = field(); E = field(); for (int g = 0; g < G; g++) shows[g][0] = 1; }
        else if (a == 's') { q0 = field(); g0 = field(); }
        else if (a == 'f') final[field()] = 1;
        else if (a == 'e' && b == 'v') { int g = field(); shows[g][field()] = 1; }
        else if (a == 'm') { from[M] = field(); event[M] = field(); to[M++] = field(); }
        else {
            kind[R] = a == 'e' ? 0 : a == 'd' ? 1 : 2;
            top[R] = field();
            if (kind[R] > 0) one[R] = field();
            if (kind[R] > 1) two[R] = field();
            R++;
        }
        line();
    }
}

static int added;
static void add_head(int q, int g, int n) { if (head[q][g] == ABSENT) { head[q][g] = n; added = 1; } }
static void add_erase(int q, int g, int e, int n) { if (erase[q][g][e] == ABSENT) { erase[q][g][e] = n; added = 1; } }

static void round(int n) {
    for (int r = 0; r < R; r++) for (int v = 0; v < M; v++) {
        int q = from[v], p = to[v], g = top[r];
        if (!shows[g][event[v]]) continue;
        if (kind[r] == 0) { add_erase(q, g, p, n); continue; }
        if (head[q][g] < n) add_head(p, one[r], n);
        for (int e = 0; e < Q; e++) {
            if (erase[p][one[r]][e] >= n) continue;
            if (kind[r] == 1) { add_erase(q, g, e, n); continue; }
            if (head[q][g] < n) add_head(e, two[r], n);
            for (int f = 0; f < Q; f++) if (erase[e][two[r]][f] < n) add_erase(q, g, f, n);
        }
    }
}

static int violated(void) {
    for (int q = 0; q < Q; q++) if (final[q]) for (int g = 0; g < G; g++) if (head[q][g] != ABSENT) return 1;
    for (int e = 0; e < Q; e++) if (final[e] && erase[q0][g0][e] != ABSENT) return 1;
    return 0;
}

static int store(int r, int v) { if (count == ROOM) return 0; steps[count++] = r * 128 + v; return 1; }

static int unfold_erase(int q, int g, int e) {
    int n = erase[q][g][e];
    for (int r = 0; r < R; r++) for (int v = 0; v < M; v++) {
        int p = to[v];
        if (top[r] != g || from[v] != q || !shows[g][event[v]]) continue;
        if (kind[r] == 0 && p == e) return store(r, v);
        if (kind[r] == 1 && erase[p][one[r]][e] < n) return store(r, v) && unfold_erase(p, one[r], e);
        if (kind[r] == 2) for (int m = 0; m < Q; m++) if (erase[p][one[r]][m] < n && erase[m][two[r]][e] < n)
            return store(r, v) && unfold_erase(p, one[r], m) && unfold_erase(m, two[r], e);
    }
    return 0;
}

static int unfold_head(int q, int g) {
    int n = head[q][g];
    if (n == 0) return 1;
    for (int r = 0; r < R; r++) for (int v = 0; v < M; v++) {
        int p = from[v], t = top[r];
        if (!kind[r] || !shows[t][event[v]] || head[p][t] >= n) continue;
        if (one[r] == g && to[v] == q) return unfold_head(p, t) && store(r, v);
        if (kind[r] == 2 && two[r] == g && erase[to[v]][one[r]][q] < n)
            return unfold_head(p, t) && store(r, v) && unfold_erase(to[v], one[r], q);
    }
    return 0;
}

static int trace(void) {
    for (int q = 0; q < Q; q++) if (final[q]) for (int g = 0; g < G; g++) if (head[q][g] != ABSENT) return unfold_head(q, g);
    for (int e = 0; e < Q; e++) if (final[e] && erase[q0][g0][e] != ABSENT) return unfold_erase(q0, g0, e);
    return 0;
}

static void print_trace(int n) {
    static const char *kinds[] = { "\texit\n", "\tdirect\n", "\tcall\n" };
    int whole = trace();
    put("violation"); put_field(n);
    if (whole) put_field(count); else put("\tcut");
    put("\n");
    for (long i = 0; i < count; i++) {
        int r = steps[i] / 128, v = steps[i] % 128;
        put("step"); put_field(i + 1); put_field(r); put_field(v); put_field(to[v]); put(kinds[kind[r]]);
    }
}

static void print_safe(int n) {
    int hs = 0, ts = 0;
    for (int q = 0; q < Q; q++) for (int g = 0; g < G; g++) {
        hs += head[q][g] != ABSENT;
        for (int e = 0; e < Q; e++) ts += erase[q][g][e] != ABSENT;
    }
    put("safe"); put_field(n); put_field(hs); put_field(ts); put("\n");
    for (int q = 0; q < Q; q++) for (int g = 0; g < G; g++) if (head[q][g] != ABSENT) { put("head"); put_field(q); put_field(g); put_field(head[q][g]); put("\n"); }
    for (int q = 0; q < Q; q++) for (int g = 0; g < G; g++) for (int e = 0; e < Q; e++)
        if (erase[q][g][e] != ABSENT) { put("erase"); put_field(q); put_field(g); put_field(e); put_field(erase[q][g][e]); put("\n"); }
}

static void clear(void) {
    for (int q = 0; q < 8; q++) for (int g = 0; g < 32; g++) { head[q][g] = ABSENT; for (int e = 0; e < 8; e++) erase[q][g][e] = ABSENT; }
}

static void read_listing(void) {
    line();
    while (place < length) {
        u8 a = text[place];
        word();
        int q = field(), g = field();
        if (a == 'h') head[q][g] = field();
        else { int e = field(); erase[q][g][e] = field(); }
        line();
    }
}

static int closed(int r, int v) {
    int q = from[v], p = to[v], g = top[r];
    if (!shows[g][event[v]]) return 1;
    if (kind[r] == 0) return erase[q][g][p] != ABSENT;
    if (head[q][g] != ABSENT && head[p][one[r]] == ABSENT) return 0;
    for (int e = 0; e < Q; e++) {
        if (erase[p][one[r]][e] == ABSENT) continue;
        if (kind[r] == 1) { if (erase[q][g][e] == ABSENT) return 0; continue; }
        if (head[q][g] != ABSENT && head[e][two[r]] == ABSENT) return 0;
        for (int f = 0; f < Q; f++) if (erase[e][two[r]][f] != ABSENT && erase[q][g][f] == ABSENT) return 0;
    }
    return 1;
}

static void recheck(void) {
    read_listing();
    if (head[q0][g0] == ABSENT) { put("refused\t11\t1\t0\t0\n"); return; }
    if (violated()) { put("refused\t11\t2\t0\t0\n"); return; }
    for (int r = 0; r < R; r++) for (int v = 0; v < M; v++) if (!closed(r, v)) {
        put("refused\t11\t3"); put_field(r); put_field(v); put("\n");
        return;
    }
    put("accepted\n");
}

int main(int argc, char **argv) {
    (void)argv;
    long got;
    while (length < 61441 && (got = read(0, text + length, 61441 - length)) > 0) length += got;
    read_model();
    clear();
    if (argc > 1) recheck();
    else {
        int n = 0;
        head[q0][g0] = 0;
        for (;;) {
            if (violated()) { print_trace(n); break; }
            if (n && !added) { print_safe(n); break; }
            added = 0;
            round(++n);
        }
    }
    for (long done = 0; done < used && (got = write(1, out + done, used - done)) > 0;) done += got;
    return 0;
}
