/* Chances and best states of a market file in plain floats, by the same messages as the proved program, with no bounds and no proof: what the same work costs then.

     floats chance NAME PAIR.. [given PAIR..]      floats best NAME [PAIR..]

   It reads the market files that it is measured on and refuses none: a wrong one ends it with status 1. */
#include <ctype.h>
#include <math.h>
#include <stdarg.h>
#include <stdbool.h>
#include <stdio.h>
#include <stdlib.h>
#include <string.h>

enum { VARIABLES = 256, VALUES = 16, PARENTS = 8, CLIQUES = 256, NAME = 33, BYTES = 1 << 20 };

struct variable {
    char name[NAME], values[VALUES][NAME];
    int size, parents[PARENTS], parent_count;
    double *rows;
    int row_cells;
};

struct clique {
    int variables[VARIABLES], count, cells, link;
};

struct market {
    int variable_count, clique_count, points;
    struct variable variables[VARIABLES];
    struct clique cliques[CLIQUES];
};

/* Messages over the edge from a clique to the one it is linked to: towards it, and back. */
struct edge {
    int cells;
    int *below, *above; /* the separator's cell for each cell of the clique and of the one it is linked to */
    double *up, *down;
    bool has_up, has_down;
};

struct engine {
    const struct market *market;
    bool is_greatest;
    double *tables[CLIQUES], *scratch;
    struct edge edges[CLIQUES];
    int first_child[CLIQUES], next_child[CLIQUES];
};

static struct market market;

static void fail(const char *why, ...) {
    va_list rest;
    va_start(rest, why);
    vfprintf(stderr, why, rest);
    va_end(rest);
    fputc('\n', stderr);
    exit(1);
}

static void *room(size_t count, size_t size) {
    void *made = calloc(count, size);
    if (!made) fail("no memory");
    return made;
}

/* The market file: a key, and then a number, a text, or lists of them. */

static char text[BYTES + 1];
static const char *at = text;

static void skip(void) {
    for (;;) {
        while (isspace((unsigned char)*at)) at++;
        if (*at != '#') return;
        while (*at && *at != '\n') at++;
    }
}

static bool take(char wanted) {
    skip();
    if (*at != wanted) return false;
    at++;
    return true;
}

static void want(char wanted) {
    if (!take(wanted)) fail("%c is wanted before: %.40s", wanted, at);
}

static long read_number(void) {
    char *end;
    skip();
    long number = strtol(at, &end, 10);
    if (end == at) fail("a number is wanted before: %.40s", at);
    at = end;
    return number;
}

static void read_name(char *name) {
    want('"');
    int length = 0;
    while (*at && *at != '"' && length < NAME - 1) name[length++] = *at++;
    name[length] = 0;
    want('"');
}

/* Whether one item more follows in a list that has begun. */
static bool has_item(int count) {
    if (count > 0) take(',');
    return !take(']');
}

static int find_variable(const char *name) {
    for (int i = 0; i < market.variable_count; i++)
        if (!strcmp(market.variables[i].name, name)) return i;
    fail("no variable %s", name);
    return 0;
}

/* The names of cliques stand before the variables, so they are kept till those are there. */
static char (*clique_names[CLIQUES])[NAME];

static void read_cliques(void) {
    want('[');
    for (int k = 0; has_item(k); k++) {
        struct clique *clique = &market.cliques[market.clique_count++];
        clique_names[k] = room(VARIABLES, NAME);
        want('[');
        while (has_item(clique->count)) read_name(clique_names[k][clique->count++]);
    }
}

static void read_links(void) {
    want('[');
    for (int k = 1; has_item(k - 1); k++) market.cliques[k].link = (int)read_number() - 1;
}

static void read_rows(struct variable *variable) {
    int room_for = variable->size;
    for (int i = 0; i < variable->parent_count; i++) room_for *= market.variables[variable->parents[i]].size;
    variable->rows = room((size_t)room_for, sizeof(double));
    want('[');
    for (int row = 0; has_item(row); row++) {
        want('[');
        for (int column = 0; has_item(column); column++) {
            if (variable->row_cells == room_for) fail("too many entries");
            variable->rows[variable->row_cells++] = (double)read_number() / 1e6;
        }
    }
}

static void read_key(const char *key) {
    struct variable *variable = market.variable_count ? &market.variables[market.variable_count - 1] : NULL;
    char name[NAME];
    if (!strcmp(key, "cliques")) read_cliques();
    else if (!strcmp(key, "links")) read_links();
    else if (!strcmp(key, "zeros")) while (isalpha((unsigned char)*at)) at++;
    else if (!strcmp(key, "points_per_bit")) market.points = (int)read_number();
    else if (!strcmp(key, "max_trades")) read_number();
    else if (!variable) fail("no key %s", key);
    else if (!strcmp(key, "name")) read_name(variable->name);
    else if (!strcmp(key, "rows")) read_rows(variable);
    else if (!strcmp(key, "values")) {
        want('[');
        while (has_item(variable->size)) read_name(variable->values[variable->size++]);
    } else if (!strcmp(key, "parents")) {
        want('[');
        while (has_item(variable->parent_count)) {
            read_name(name);
            variable->parents[variable->parent_count++] = find_variable(name);
        }
    } else fail("no key %s", key);
}

static void read_market(const char *path) {
    FILE *file = fopen(path, "rb");
    if (!file) fail("%s cannot be read", path);
    text[fread(text, 1, BYTES, file)] = 0;
    fclose(file);
    for (skip(); *at; skip()) {
        if (take('[')) {
            if (strncmp(at, "[variable]]", 11)) fail("no table: %.40s", at);
            at += 11;
            market.variable_count++;
            continue;
        }
        char key[NAME];
        int length = 0;
        while ((isalpha((unsigned char)*at) || *at == '_') && length < NAME - 1) key[length++] = *at++;
        key[length] = 0;
        want('=');
        skip();
        read_key(key);
    }
    for (int k = 0; k < market.clique_count; k++) {
        struct clique *clique = &market.cliques[k];
        clique->cells = 1;
        for (int i = 0; i < clique->count; i++) {
            clique->variables[i] = find_variable(clique_names[k][i]);
            clique->cells *= market.variables[clique->variables[i]].size;
        }
    }
}

/* Cells. The last variable of a clique changes fastest. */

/* The steps of a variable in a clique, or 0 where it is not there. */
static int step_of(const struct clique *clique, int variable) {
    int step = 1;
    for (int i = clique->count - 1; i >= 0; i--) {
        if (clique->variables[i] == variable) return step;
        step *= market.variables[clique->variables[i]].size;
    }
    return 0;
}

static int home_of(const int *variables, int count) {
    for (int k = 0; k < market.clique_count; k++) {
        int held = 0;
        while (held < count && step_of(&market.cliques[k], variables[held])) held++;
        if (held == count) return k;
    }
    fail("no clique holds a variable and its parents");
    return 0;
}

/* For each cell of a clique the cell of a list of its variables. */
static int *places_in(const struct clique *clique, const int *variables, int count) {
    int *places = room((size_t)clique->cells, sizeof(int));
    for (int i = 0; i < count; i++) {
        int step = step_of(clique, variables[i]), size = market.variables[variables[i]].size;
        for (int cell = 0; cell < clique->cells; cell++) places[cell] = places[cell] * size + cell / step % size;
    }
    return places;
}

/* The engine. */

static void place_rows(struct engine *engine) {
    for (int v = 0; v < market.variable_count; v++) {
        const struct variable *variable = &market.variables[v];
        int scope[PARENTS + 1], count = 0;
        for (; count < variable->parent_count; count++) scope[count] = variable->parents[count];
        scope[count++] = v;
        int home = home_of(scope, count);
        int *places = places_in(&market.cliques[home], scope, count);
        for (int cell = 0; cell < market.cliques[home].cells; cell++) engine->tables[home][cell] *= variable->rows[places[cell]];
        free(places);
    }
}

static void make_edge(struct engine *engine, int k) {
    const struct clique *below = &market.cliques[k], *above = &market.cliques[below->link];
    struct edge *edge = &engine->edges[k];
    int shared[VARIABLES], count = 0;
    edge->cells = 1;
    for (int i = 0; i < below->count; i++)
        if (step_of(above, below->variables[i])) {
            shared[count++] = below->variables[i];
            edge->cells *= market.variables[below->variables[i]].size;
        }
    edge->below = places_in(below, shared, count);
    edge->above = places_in(above, shared, count);
    edge->up = room((size_t)edge->cells, sizeof(double));
    edge->down = room((size_t)edge->cells, sizeof(double));
}

static struct engine *make_engine(bool is_greatest) {
    struct engine *engine = room(1, sizeof *engine);
    int most = 0;
    engine->is_greatest = is_greatest;
    for (int k = 0; k < market.clique_count; k++) {
        int cells = market.cliques[k].cells;
        engine->tables[k] = room((size_t)cells, sizeof(double));
        for (int cell = 0; cell < cells; cell++) engine->tables[k][cell] = 1;
        if (cells > most) most = cells;
        engine->first_child[k] = -1;
        if (k == 0) continue;
        make_edge(engine, k);
        engine->next_child[k] = engine->first_child[market.cliques[k].link];
        engine->first_child[market.cliques[k].link] = k;
    }
    engine->scratch = room((size_t)most, sizeof(double));
    place_rows(engine);
    return engine;
}

static void times(double *product, const double *message, const int *places, int cells) {
    for (int cell = 0; cell < cells; cell++) product[cell] *= message[places[cell]];
}

/* The product of a clique's table and of all messages to it but that from one neighbour. */
static const double *product_at(struct engine *engine, int clique, int but) {
    int cells = market.cliques[clique].cells;
    memcpy(engine->scratch, engine->tables[clique], (size_t)cells * sizeof(double));
    for (int child = engine->first_child[clique]; child >= 0; child = engine->next_child[child])
        if (child != but) times(engine->scratch, engine->edges[child].up, engine->edges[child].above, cells);
    if (clique > 0 && market.cliques[clique].link != but) times(engine->scratch, engine->edges[clique].down, engine->edges[clique].below, cells);
    return engine->scratch;
}

static void gather(struct engine *engine, double *sums, int size, const double *product, const int *places, int cells) {
    for (int i = 0; i < size; i++) sums[i] = 0;
    if (engine->is_greatest) {
        for (int cell = 0; cell < cells; cell++)
            if (product[cell] > sums[places[cell]]) sums[places[cell]] = product[cell];
    } else
        for (int cell = 0; cell < cells; cell++) sums[places[cell]] += product[cell];
}

/* Makes what messages to a clique are not there, but that from one neighbour. */
static void collect(struct engine *engine, int clique, int but) {
    for (int child = engine->first_child[clique]; child >= 0; child = engine->next_child[child]) {
        struct edge *edge = &engine->edges[child];
        if (child == but || edge->has_up) continue;
        collect(engine, child, clique);
        gather(engine, edge->up, edge->cells, product_at(engine, child, clique), edge->below, market.cliques[child].cells);
        edge->has_up = true;
    }
    int above = clique > 0 ? market.cliques[clique].link : -1;
    if (above < 0 || above == but || engine->edges[clique].has_down) return;
    struct edge *edge = &engine->edges[clique];
    collect(engine, above, clique);
    gather(engine, edge->down, edge->cells, product_at(engine, above, clique), edge->above, market.cliques[above].cells);
    edge->has_down = true;
}

/* Drops the messages that lead away from a clique. Behind one that is not there none is. */
static void spoil(struct engine *engine, int clique, int from) {
    for (int child = engine->first_child[clique]; child >= 0; child = engine->next_child[child]) {
        if (child == from || !engine->edges[child].has_down) continue;
        engine->edges[child].has_down = false;
        spoil(engine, child, clique);
    }
    if (clique == 0 || market.cliques[clique].link == from || !engine->edges[clique].has_up) return;
    engine->edges[clique].has_up = false;
    spoil(engine, market.cliques[clique].link, clique);
}

static void know(struct engine *engine, int variable, int value) {
    int home = home_of(&variable, 1);
    const struct clique *clique = &market.cliques[home];
    int step = step_of(clique, variable), size = market.variables[variable].size;
    for (int cell = 0; cell < clique->cells; cell++)
        if (cell / step % size != value) engine->tables[home][cell] = 0;
    spoil(engine, home, -1);
}

/* The sum, or the greatest, of all states that are left. */
static double whole(struct engine *engine) {
    int *nowhere = room((size_t)market.cliques[0].cells, sizeof(int));
    double sum;
    collect(engine, 0, -1);
    gather(engine, &sum, 1, product_at(engine, 0, -1), nowhere, market.cliques[0].cells);
    free(nowhere);
    return sum;
}

static int best_value(struct engine *engine, int variable) {
    int home = home_of(&variable, 1), best = 0;
    double sums[VALUES];
    collect(engine, home, -1);
    int *places = places_in(&market.cliques[home], &variable, 1);
    gather(engine, sums, market.variables[variable].size, product_at(engine, home, -1), places, market.cliques[home].cells);
    free(places);
    for (int value = 1; value < market.variables[variable].size; value++)
        if (sums[value] > sums[best]) best = value;
    return best;
}

/* The words. */

static void know_pair(struct engine *engine, const char *pair) {
    char name[NAME];
    const char *sign = strchr(pair, '=');
    if (!sign || sign - pair >= NAME) fail("no pair: %s", pair);
    memcpy(name, pair, (size_t)(sign - pair));
    name[sign - pair] = 0;
    int variable = find_variable(name);
    for (int value = 0; value < market.variables[variable].size; value++)
        if (!strcmp(market.variables[variable].values[value], sign + 1)) {
            know(engine, variable, value);
            return;
        }
    fail("no value: %s", pair);
}

static void print_ends(double share) {
    printf("%.10f..%.10f", floor(share * 1e10) / 1e10, ceil(share * 1e10) / 1e10);
}

static void tell_chance(int count, char **words) {
    struct engine *sums = make_engine(false);
    int wanted = 0;
    while (wanted < count && strcmp(words[wanted], "given")) wanted++;
    for (int i = wanted + 1; i < count; i++) know_pair(sums, words[i]);
    double all = whole(sums);
    for (int i = 0; i < wanted; i++) know_pair(sums, words[i]);
    printf("chance ");
    print_ends(whole(sums) / all);
    printf("\n");
}

static void tell_best(int count, char **words) {
    struct engine *sums = make_engine(false), *maxima = make_engine(true);
    int found[VARIABLES];
    for (int i = 0; i < count; i++) {
        know_pair(sums, words[i]);
        know_pair(maxima, words[i]);
    }
    double all = whole(sums), top = whole(maxima);
    for (int v = 0; v < market.variable_count; v++) {
        found[v] = best_value(maxima, v);
        know(maxima, v, found[v]);
    }
    for (int v = 0; v < market.variable_count; v++) know(sums, v, found[v]);
    printf("best ");
    print_ends(whole(sums) / all);
    printf(" at most %.10f", ceil(top / all * 1e10) / 1e10);
    for (int v = 0; v < market.variable_count; v++) printf(" %s=%s", market.variables[v].name, market.variables[v].values[found[v]]);
    printf("\n");
}

int main(int count, char **words) {
    if (count < 3) fail("usage: floats chance NAME PAIR.. [given PAIR..] | floats best NAME [PAIR..]");
    read_market(words[2]);
    printf("ready %d %d\n", market.variable_count, market.points);
    if (!strcmp(words[1], "chance")) tell_chance(count - 3, words + 3);
    else tell_best(count - 3, words + 3);
    return 0;
}
