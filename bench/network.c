/* What bench/network.py times, for ARCDATA alone and in plain C: with lists of the same kind as the program's, of nearly
 * the same size (a column takes 176 bytes, where the program's takes 192), without a proof and without most checks. It
 * tells what such a problem takes of the machine itself.
 *
 *     network whole|tables
 *
 * It reads arcs.csv in the folder in which it is started, as bench/network.py writes it: seven columns, no quotes. It cuts
 * the text into cells and, unless these alone are asked for, numbers the nodes in order of first appearance, reads each
 * arc's name and numbers, sees that no arc repeats another, and makes the labels, the columns and the lists by row. */
#include <stdint.h>
#include <stdio.h>
#include <stdlib.h>
#include <string.h>

enum { COLUMNS = 7, MOST_NODES = 1 << 15, NODE_SLOTS = 1 << 16, PLACES_PER_ARC = 16, NONE = -1 };

typedef struct { __int128 numerator; unsigned __int128 denominator; } Frac;
typedef struct { Frac value; uint32_t number; } Entry;
typedef struct { const char *bytes; size_t length; } Cell;
typedef struct { char bytes[24]; size_t length; } Name;
typedef struct { size_t tail, head; } Arc;
typedef struct { int64_t cost, lower, upper; } Figures;
typedef struct { int64_t numerator; uint32_t denominator, is_wide; } Number;
typedef struct {
    Number cost, lower, upper;
    size_t is_bounded;
    uint32_t tail, head;
    Entry entries[2];
    size_t length, is_inline;
} Column;

static char *text;
static size_t *ends;
static size_t rows;
static Name *nodes;
static int32_t *node_slots;
static size_t node_count, names_length;
static Arc *arcs;
static char *names;
static size_t *name_ends;
static Figures *figures;
static Column *columns;

static void *memory(size_t bytes)
{
    void *taken = malloc(bytes);
    if (!taken)
        exit(10);
    return taken;
}

static void read_table(void)
{
    FILE *file = fopen("arcs.csv", "rb");
    if (!file || fseek(file, 0, SEEK_END))
        exit(1);
    size_t size = (size_t)ftell(file), cells = 0, length = 0;
    rewind(file);
    char *bytes = memory(size);
    if (fread(bytes, 1, size, file) != size)
        exit(1);
    fclose(file);
    for (size_t i = 0; i < size; i++)
        cells += bytes[i] == ',' || bytes[i] == '\n';
    text = memory(size);
    ends = memory(cells * sizeof *ends);
    rows = cells / COLUMNS - 1;
    cells = 0;
    for (size_t i = 0; i < size; i++) {
        if (bytes[i] == ',' || bytes[i] == '\n')
            ends[cells++] = length;
        else
            text[length++] = bytes[i];
    }
    free(bytes);
}

static Cell cell(size_t row, size_t column)
{
    size_t i = row * COLUMNS + column, start = ends[i - 1], end = ends[i];
    while (start < end && text[start] == ' ')
        start++;
    while (start < end && text[end - 1] == ' ')
        end--;
    return (Cell){text + start, end - start};
}

static Cell name_cell(size_t row, size_t column)
{
    Cell name = cell(row, column);
    if (!name.length || name.length > sizeof nodes->bytes)
        exit(2);
    for (size_t i = 0; i < name.length; i++) {
        unsigned byte = (unsigned char)name.bytes[i];
        if (!(byte - '0' < 10 || (byte | 32) - 'a' < 26 || byte == ' ' || byte == '_' || byte == '.' || byte == '-'))
            exit(2);
    }
    return name;
}

/* Thousandths of a whole amount. */
static int64_t amount_cell(size_t row, size_t column)
{
    Cell amount = cell(row, column);
    int64_t value = 0;
    size_t sign = amount.length && amount.bytes[0] == '-';
    for (size_t i = sign; i < amount.length; i++) {
        if ((unsigned)(amount.bytes[i] - '0') > 9)
            exit(3);
        value = value * 10 + (amount.bytes[i] - '0');
    }
    return (sign ? -value : value) * 1000;
}

static uint64_t folded(uint64_t a, uint64_t b)
{
    unsigned __int128 product = (unsigned __int128)a * b;
    return (uint64_t)product ^ (uint64_t)(product >> 64);
}

static uint64_t hash(Cell name, uint64_t seed)
{
    uint64_t front = 0, back = 0;
    size_t few = name.length < 8 ? name.length : 8;
    memcpy(&front, name.bytes, few);
    memcpy(&back, name.bytes + name.length - few, few);
    return folded(front ^ seed ^ name.length, back ^ 0x9e3779b97f4a7c15u);
}

static int is_same(const Name *name, Cell other)
{
    return name->length == other.length && !memcmp(name->bytes, other.bytes, other.length);
}

static size_t number_of(Cell name)
{
    size_t slot = hash(name, 7) & (NODE_SLOTS - 1);
    for (; node_slots[slot] != NONE; slot = (slot + 1) & (NODE_SLOTS - 1))
        if (is_same(&nodes[node_slots[slot]], name))
            return (size_t)node_slots[slot];
    if (node_count == MOST_NODES)
        exit(4);
    node_slots[slot] = (int32_t)node_count;
    memcpy(nodes[node_count].bytes, name.bytes, name.length);
    nodes[node_count].length = name.length;
    return node_count++;
}

static void add_arc(size_t row, size_t tail, size_t head, Cell name)
{
    arcs[row - 1] = (Arc){tail, head};
    memcpy(names + names_length, name.bytes, name.length);
    name_ends[row - 1] = names_length += name.length;
}

static Cell name_of(size_t j)
{
    size_t start = j ? name_ends[j - 1] : 0;
    return (Cell){names + start, name_ends[j] - start};
}

static int are_same(size_t i, size_t j)
{
    Cell a = name_of(i), b = name_of(j);
    return arcs[i].tail == arcs[j].tail && arcs[i].head == arcs[j].head && a.length == b.length && !memcmp(a.bytes, b.bytes, a.length);
}

static size_t place_of(size_t j, size_t places)
{
    return (arcs[j].tail * 20011 + arcs[j].head) % places;
}

static int has(const uint64_t *set, size_t place)
{
    return set[place / 64] >> place % 64 & 1;
}

/* Looks among arcs whose place is another's too. */
static void look_for_repeats(void)
{
    size_t places = rows * PLACES_PER_ARC + 1, count = 0, slots = 2;
    uint64_t *taken = calloc(places / 64 + 1, sizeof *taken), *shared = calloc(places / 64 + 1, sizeof *shared);
    for (size_t j = 0; j < rows; j++) {
        size_t place = place_of(j, places);
        if (has(taken, place))
            shared[place / 64] |= (uint64_t)1 << place % 64;
        taken[place / 64] |= (uint64_t)1 << place % 64;
    }
    for (size_t j = 0; j < rows; j++)
        count += has(shared, place_of(j, places));
    while (slots < 2 * count)
        slots *= 2;
    int32_t *arc_slots = memset(memory(slots * sizeof *arc_slots), 0xff, slots * sizeof *arc_slots);
    for (size_t j = 0; j < rows; j++) {
        if (!has(shared, place_of(j, places)))
            continue;
        size_t slot = folded(hash(name_of(j), arcs[j].tail), arcs[j].head + 1) & (slots - 1);
        for (; arc_slots[slot] != NONE; slot = (slot + 1) & (slots - 1))
            if (are_same((size_t)arc_slots[slot], j))
                exit(5);
        arc_slots[slot] = (int32_t)j;
    }
    free(taken);
    free(shared);
    free(arc_slots);
}

static void read_arcs(void)
{
    nodes = memory(MOST_NODES * sizeof *nodes);
    node_slots = memset(memory(NODE_SLOTS * sizeof *node_slots), 0xff, NODE_SLOTS * sizeof *node_slots);
    arcs = memory(rows * sizeof *arcs);
    names = memory(rows * sizeof nodes->bytes);
    name_ends = memory(rows * sizeof *name_ends);
    figures = memory(rows * sizeof *figures);
    for (size_t row = 1; row <= rows; row++) {
        size_t tail = number_of(name_cell(row, 0)), head = number_of(name_cell(row, 1));
        add_arc(row, tail, head, name_cell(row, 2));
        Figures *f = &figures[row - 1];
        *f = (Figures){amount_cell(row, 3), amount_cell(row, 4), amount_cell(row, 5)};
        if (f->upper < f->lower)
            exit(6);
    }
}

/* The names are labels already; the cells of the ID column come behind them. */
static size_t make_labels(void)
{
    size_t *id_ends = memory(rows * sizeof *id_ends), length = 0;
    for (size_t j = 0; j < rows; j++)
        id_ends[j] = length += cell(j + 1, 6).length;
    return length + names_length;
}

static Number whole(int64_t thousandths)
{
    return (Number){thousandths / 1000, 1, 0};
}

static void make_columns(void)
{
    columns = memory(rows * sizeof *columns);
    for (size_t j = 0; j < rows; j++) {
        Column *c = &columns[j];
        c->cost = whole(figures[j].cost);
        c->lower = whole(figures[j].lower);
        c->upper = whole(figures[j].upper);
        c->tail = (uint32_t)arcs[j].tail + 1;
        c->head = (uint32_t)arcs[j].head + 1;
        size_t later = c->tail > c->head;
        c->entries[later] = (Entry){{1, 1}, c->tail};
        c->entries[!later] = (Entry){{-1, 1}, c->head};
        c->is_bounded = c->is_inline = 1;
        c->length = c->tail == c->head ? 0 : 2;
    }
    free(arcs);
    free(figures);
}

static size_t make_lists_by_row(void)
{
    size_t *places = calloc(node_count, sizeof *places), place = 0;
    Entry *lists = memory(rows * 2 * sizeof *lists);
    for (size_t j = 0; j < rows; j++)
        for (size_t k = 0; k < columns[j].length; k++)
            places[columns[j].entries[k].number - 1]++;
    for (size_t i = 0; i < node_count; i++) {
        size_t count = places[i];
        places[i] = place;
        place += count;
    }
    for (size_t j = 0; j < rows; j++)
        for (size_t k = 0; k < columns[j].length; k++) {
            const Entry *e = &columns[j].entries[k];
            lists[places[e->number - 1]++] = (Entry){e->value, (uint32_t)j + 1};
        }
    return lists[place / 2].number;
}

int main(int count, char **words)
{
    if (count != 2)
        return 9;
    read_table();
    if (strcmp(words[1], "whole"))
        return 0;
    read_arcs();
    look_for_repeats();
    size_t length = make_labels();
    make_columns();
    printf("%zu arcs, %zu nodes, %zu bytes of names, an entry of column %zu\n", rows, node_count, length, make_lists_by_row());
    return 0;
}
