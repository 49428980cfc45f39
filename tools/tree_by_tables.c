/* The least cost of a network without undirected loops, by the same method as the program and in the plainest C: a yardstick for
   tools/bench, unproved. Bounds are tables alone; fields are split at commas, without quotes.
     tree_by_tables STAGES TABLES ARCS HORIZON     prints `optimal,COST` or `infeasible` */
#include <stdio.h>
#include <stdlib.h>
#include <string.h>

enum { MOST = 2000, TIMES = 1001, LINE = 1 << 16 };
static const long long INF = 1LL << 61; /* a cost and two of them are added */

struct stage { char name[80]; int lead, supply, least, most, cost_len; long long cost[TIMES]; };
static struct stage stages[MOST];
static int count, arcs, from[3 * MOST], to[3 * MOST], parent[MOST], order[MOST], horizon;
static long long values[MOST][TIMES]; /* by outbound time where the parent is a customer, else by inbound time */
static char down[MOST];

static int split(char *line, char **fields, int most)
{
    int n = 0;
    line[strcspn(line, "\r\n")] = 0;
    for (char *at = line; at && n < most; n++) {
        fields[n] = at;
        at = strchr(at, ',');
        if (at) *at++ = 0;
    }
    return n;
}

static int number(const char *field, int blank) { return *field ? atoi(field) : blank; }
static long long lesser(long long a, long long b) { return a < b ? a : b; }

static int place(const char *name)
{
    for (int j = 0; j < count; j++)
        if (!strcmp(stages[j].name, name)) return j;
    exit(2);
}

static void read_files(char **paths)
{
    static char line[LINE], names[MOST][80];
    static long long entries[MOST][TIMES];
    static int lengths[MOST];
    char *fields[TIMES + 1];
    int tables = 0;
    FILE *file = fopen(paths[1], "r");
    for (fgets(line, LINE, file); fgets(line, LINE, file); tables++) {
        int n = split(line, fields, TIMES + 1);
        strcpy(names[tables], fields[0]);
        for (int t = 1; t < n && t <= horizon + 1; t++) entries[tables][t - 1] = atoll(fields[t]);
        lengths[tables] = n - 1 < horizon + 1 ? n - 1 : horizon + 1;
    }
    fclose(file);
    file = fopen(paths[0], "r");
    for (fgets(line, LINE, file); fgets(line, LINE, file); count++) {
        struct stage *s = &stages[count];
        int table = 0;
        split(line, fields, 7);
        strcpy(s->name, fields[0]);
        s->lead = atoi(fields[1]);
        s->supply = number(fields[2], 0);
        s->least = number(fields[3], 0);
        s->most = number(fields[4], horizon) < horizon ? number(fields[4], horizon) : horizon;
        while (strcmp(names[table], fields[5])) table++;
        s->cost_len = lengths[table];
        for (int t = 0; t < s->cost_len; t++) s->cost[t] = atoll(fields[6]) * entries[table][t];
    }
    fclose(file);
    file = fopen(paths[2], "r");
    for (fgets(line, LINE, file); fgets(line, LINE, file); arcs++) {
        split(line, fields, 3);
        from[arcs] = place(fields[0]);
        to[arcs] = place(fields[1]);
    }
    fclose(file);
}

static void walk(void)
{
    int seen = 0, at = 0;
    for (int j = 0; j < count; j++) parent[j] = -1;
    for (int root = 0; root < count; root++) {
        if (parent[root] >= 0) continue;
        parent[root] = root;
        order[seen++] = root;
        for (; at < seen; at++)
            for (int a = 0; a < arcs; a++) {
                int other = from[a] == order[at] ? to[a] : to[a] == order[at] ? from[a] : -1;
                if (other < 0 || parent[other] >= 0) continue;
                parent[other] = order[at];
                down[other] = from[a] == other;
                order[seen++] = other;
            }
    }
}

static long long table_of(int j)
{
    const struct stage *s = &stages[j];
    static long long by_inbound[TIMES], by_outbound[TIMES];
    int floor = s->supply;
    long long root = INF;
    for (int t = 0; t <= horizon; t++) by_inbound[t] = by_outbound[t] = 0;
    for (int a = 0; a < arcs; a++)
        if (to[a] == j && stages[from[a]].least > floor) floor = stages[from[a]].least;
    for (int c = 0; c < count; c++) {
        long long least = INF;
        if (parent[c] != j || c == j) continue;
        if (down[c])
            for (int t = 0; t <= horizon; t++) {
                least = lesser(least, values[c][t]);
                by_inbound[t] = lesser(by_inbound[t] + least, INF);
            }
        else
            for (int t = horizon; t >= 0; t--) {
                least = lesser(least, values[c][t]);
                by_outbound[t] = lesser(by_outbound[t] + least, INF);
            }
    }
    for (int t = 0; t <= horizon; t++) values[j][t] = INF;
    for (int out = s->least; out <= s->most; out++)
        for (int in = floor; in <= horizon; in++) {
            int time = in + s->lead - out;
            if (time < 0 || time >= s->cost_len) continue;
            long long sum = lesser(s->cost[time] + by_inbound[in] + by_outbound[out], INF);
            int at = down[j] ? out : in;
            values[j][at] = lesser(values[j][at], sum);
            root = lesser(root, sum);
        }
    return root;
}

int main(int argc, char **argv)
{
    long long total = 0;
    if (argc != 5) return 2;
    horizon = atoi(argv[4]);
    read_files(argv + 1);
    walk();
    for (int k = count - 1; k >= 0; k--) {
        long long root = table_of(order[k]);
        if (parent[order[k]] == order[k]) total = lesser(total + root, INF);
    }
    if (total < INF) printf("optimal,%lld\n", total);
    else puts("infeasible");
    return 0;
}
