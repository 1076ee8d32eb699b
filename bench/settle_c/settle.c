/* The settling of crates/kn_settle in C, over the systems of crates/kn_bench, for comparing times.
 *
 * Without words it prints what it settled: the policy's level, the rows of the proof and the steps. `time` prints the
 * nanoseconds of building and of settling each system, each the least of several rounds.
 *
 * Formulas stand in one list of nodes with links upwards, the uses of a principal in a chain. A principal that gets its
 * level visits its uses once, a gate counts its fulfilled parts up to its need, and a row whose formula is fulfilled waits
 * in the bucket of its level.
 */
#include <inttypes.h>
#include <stdbool.h>
#include <stdint.h>
#include <stdio.h>
#include <stdlib.h>
#include <string.h>
#include <time.h>

#define LEVELS 4
#define NONE UINT32_MAX
#define ROUNDS 50

/* A principal, or a gate over `count` parts of which it needs `need`. */
struct piece {
	bool is_gate;
	uint32_t who, need, count;
};

struct stated {
	uint32_t authorizer;
	uint8_t ceiling;
	uint32_t size;
	struct piece formula[6];
};

/* The high bit of a link upwards says that it is a row, not a node. */
#define ROW (UINT32_C(1) << 31)

struct system {
	uint32_t principals, rows, nodes;
	uint32_t principal_room, row_room, node_room, stack_room;
	bool *requester;
	uint32_t *first_use, *last_use;
	uint32_t *authorizer;
	uint8_t *ceiling;
	uint32_t *need, *up, *next_use;
	uint32_t *stack;
};

struct proof_row {
	uint32_t principal, by;
	uint8_t value;
};

struct settled {
	uint8_t *levels;
	struct proof_row *rows;
	uint32_t row_count;
	uint64_t steps;
};

static void *grown(void *from, size_t bytes)
{
	void *to = realloc(from, bytes);
	if (to == NULL)
		exit(1);
	return to;
}

static uint32_t room_for(uint32_t room, uint32_t wanted)
{
	if (room == 0)
		room = 8;
	while (room < wanted)
		room *= 2;
	return room;
}

static void push_principal(struct system *s, bool requester)
{
	if (s->principals == s->principal_room) {
		s->principal_room = room_for(s->principal_room, s->principals + 1);
		s->requester = grown(s->requester, s->principal_room * sizeof *s->requester);
		s->first_use = grown(s->first_use, s->principal_room * sizeof *s->first_use);
		s->last_use = grown(s->last_use, s->principal_room * sizeof *s->last_use);
	}
	s->requester[s->principals] = requester;
	s->first_use[s->principals] = NONE;
	s->last_use[s->principals] = NONE;
	s->principals++;
}

static void reserve_nodes(struct system *s, uint32_t more)
{
	if (s->nodes + more <= s->node_room)
		return;
	s->node_room = room_for(s->node_room, s->nodes + more);
	s->need = grown(s->need, s->node_room * sizeof *s->need);
	s->up = grown(s->up, s->node_room * sizeof *s->up);
	s->next_use = grown(s->next_use, s->node_room * sizeof *s->next_use);
}

static void push_use(struct system *s, uint32_t who, uint32_t node)
{
	s->next_use[node] = NONE;
	if (s->last_use[who] == NONE)
		s->first_use[who] = node;
	else
		s->next_use[s->last_use[who]] = node;
	s->last_use[who] = node;
}

static void push_row(struct system *s, const struct stated *row)
{
	if (s->rows == s->row_room) {
		s->row_room = room_for(s->row_room, s->rows + 1);
		s->authorizer = grown(s->authorizer, s->row_room * sizeof *s->authorizer);
		s->ceiling = grown(s->ceiling, s->row_room * sizeof *s->ceiling);
	}
	reserve_nodes(s, row->size);
	uint32_t depth = 0;
	if (s->stack_room < row->size) {
		s->stack_room = room_for(s->stack_room, row->size);
		s->stack = grown(s->stack, s->stack_room * sizeof *s->stack);
	}
	s->stack[depth++] = ROW | s->rows;
	for (uint32_t i = 0; i < row->size; i++) {
		const struct piece *piece = &row->formula[i];
		uint32_t node = s->nodes++;
		s->up[node] = s->stack[--depth];
		if (piece->is_gate) {
			s->need[node] = piece->need;
			for (uint32_t part = 0; part < piece->count; part++)
				s->stack[depth++] = node;
		} else {
			s->need[node] = 0;
			push_use(s, piece->who, node);
		}
	}
	s->authorizer[s->rows] = row->authorizer;
	s->ceiling[s->rows] = row->ceiling;
	s->rows++;
}

static void free_system(struct system *s)
{
	free(s->requester);
	free(s->first_use);
	free(s->last_use);
	free(s->authorizer);
	free(s->ceiling);
	free(s->need);
	free(s->up);
	free(s->next_use);
	free(s->stack);
}

struct counters {
	uint32_t *counts;
	uint32_t *buckets[LEVELS];
	uint32_t waiting[LEVELS], room[LEVELS];
};

static void put_row(struct counters *c, const struct system *s, struct settled *t, uint32_t row, uint8_t value)
{
	if (t->levels[s->authorizer[row]])
		return;
	t->steps++;
	uint8_t level = value < s->ceiling[row] ? value : s->ceiling[row];
	if (c->waiting[level] == c->room[level]) {
		c->room[level] = room_for(c->room[level], c->waiting[level] + 1);
		c->buckets[level] = grown(c->buckets[level], c->room[level] * sizeof *c->buckets[level]);
	}
	c->buckets[level][c->waiting[level]++] = row;
}

static void climb(struct counters *c, const struct system *s, struct settled *t, uint32_t node, uint8_t value)
{
	t->steps++;
	uint32_t up = s->up[node];
	while (!(up & ROW)) {
		t->steps++;
		if (c->counts[up] >= s->need[up])
			return;
		if (++c->counts[up] < s->need[up])
			return;
		up = s->up[up];
	}
	put_row(c, s, t, up & ~ROW, value);
}

static void reach(struct counters *c, const struct system *s, struct settled *t, uint32_t principal, uint8_t value)
{
	t->levels[principal] = value;
	for (uint32_t node = s->first_use[principal]; node != NONE; node = s->next_use[node]) {
		t->steps++;
		climb(c, s, t, node, value);
	}
	t->steps++;
}

static struct settled settle(const struct system *s)
{
	struct settled t = { .levels = calloc(s->principals, 1) };
	struct counters c = { .counts = calloc(s->nodes, sizeof *c.counts) };
	uint32_t room = 0;
	if (t.levels == NULL || c.counts == NULL)
		exit(1);
	for (uint32_t p = 0; p < s->principals; p++)
		if (s->requester[p])
			reach(&c, s, &t, p, LEVELS - 1);
	for (uint8_t value = LEVELS - 1; value > 0; value--) {
		for (uint32_t at = 0; at < c.waiting[value]; at++) {
			uint32_t row = c.buckets[value][at];
			uint32_t principal = s->authorizer[row];
			if (t.levels[principal] != 0)
				continue;
			if (t.row_count == room) {
				room = room_for(room, t.row_count + 1);
				t.rows = grown(t.rows, room * sizeof *t.rows);
			}
			t.rows[t.row_count++] = (struct proof_row){ principal, row, value };
			reach(&c, s, &t, principal, value);
		}
	}
	free(c.counts);
	for (int level = 0; level < LEVELS; level++)
		free(c.buckets[level]);
	return t;
}

static uint32_t draw(uint64_t *seed, uint32_t below)
{
	*seed = *seed * UINT64_C(6364136223846793005) + UINT64_C(1442695040888963407);
	return (uint32_t)(*seed >> 33) % below;
}

static struct piece who(uint32_t principal)
{
	return (struct piece){ .who = principal };
}

static struct piece gate(uint32_t need, uint32_t count)
{
	return (struct piece){ .is_gate = true, .need = need, .count = count };
}

static void state_chain(struct stated *row, uint32_t authorizer)
{
	*row = (struct stated){ .authorizer = authorizer, .ceiling = LEVELS - 1, .size = 1, .formula = { who(authorizer + 1) } };
}

static void state_mixed(struct stated *row, uint32_t authorizer, uint32_t size, uint64_t *seed)
{
	uint8_t ceiling = (uint8_t)(1 + draw(seed, LEVELS - 1));
	uint32_t a = authorizer + 1 + draw(seed, size - authorizer);
	uint32_t b = draw(seed, size + 1), c = draw(seed, size + 1), d = draw(seed, size + 1);
	*row = (struct stated){
		.authorizer = authorizer,
		.ceiling = ceiling,
		.size = 6,
		.formula = { gate(1, 2), who(a), gate(2, 3), who(b), who(c), who(d) },
	};
}

static struct stated *state(const char *shape, uint32_t size)
{
	struct stated *rows = grown(NULL, size * sizeof *rows);
	uint64_t seed = size;
	for (uint32_t i = 0; i < size; i++) {
		if (strcmp(shape, "worst") == 0)
			state_chain(&rows[i], i);
		else if (strcmp(shape, "best") == 0)
			state_chain(&rows[i], size - 1 - i);
		else
			state_mixed(&rows[i], i, size, &seed);
	}
	return rows;
}

static void build(struct system *s, const struct stated *rows, uint32_t size)
{
	memset(s, 0, sizeof *s);
	for (uint32_t p = 0; p <= size; p++)
		push_principal(s, p == size);
	for (uint32_t i = 0; i < size; i++)
		push_row(s, &rows[i]);
}

static uint64_t now(void)
{
	struct timespec t;
	clock_gettime(CLOCK_MONOTONIC, &t);
	return (uint64_t)t.tv_sec * 1000000000 + (uint64_t)t.tv_nsec;
}

static void run(const char *shape, uint32_t size, bool timed)
{
	struct stated *rows = state(shape, size);
	uint64_t building = UINT64_MAX, settling = UINT64_MAX;
	for (int round = 0; round < (timed ? ROUNDS : 1); round++) {
		struct system s;
		uint64_t start = now();
		build(&s, rows, size);
		uint64_t built = now();
		struct settled t = settle(&s);
		uint64_t end = now();
		building = built - start < building ? built - start : building;
		settling = end - built < settling ? end - built : settling;
		if (!timed)
			printf("%s %" PRIu32 ": level %u, %" PRIu32 " rows, %" PRIu64 " steps\n", shape, size, t.levels[0], t.row_count, t.steps);
		free(t.levels);
		free(t.rows);
		free_system(&s);
	}
	if (timed)
		printf("%s %" PRIu32 " %" PRIu64 " %" PRIu64 "\n", shape, size, building, settling);
	free(rows);
}

int main(int argc, char **argv)
{
	static const char *const shapes[] = { "worst", "best", "mixed" };
	static const uint32_t sizes[] = { 128, 256, 512, 1024, 2048, 4096 };
	bool timed = argc > 1 && strcmp(argv[1], "time") == 0;
	for (size_t shape = 0; shape < sizeof shapes / sizeof *shapes; shape++)
		for (size_t i = 0; i < sizeof sizes / sizeof *sizes; i++)
			run(shapes[shape], sizes[i], timed);
	return 0;
}
