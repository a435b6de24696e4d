/* The registries that a connection has open, and the heap of the proved code, which is that of SQLite. */
#include "bcs_sqlite.h"
SQLITE_EXTENSION_INIT3

#include "heap.h"

/* How many bytes the call in progress may still take. */
static __thread sqlite3_int64 left = NO_LIMIT;

void limit_memory(sqlite3_int64 memory) {
    left = memory;
}

bool count_output(size_t length) {
    const bool is_within = (sqlite3_int64)length <= left;
    left -= is_within ? (sqlite3_int64)length : 0;
    return is_within;
}

void forget_output(size_t length) {
    left += (sqlite3_int64)length;
}

static void *take_block(size_t length) {
    void *block = (sqlite3_int64)length <= left ? sqlite3_malloc64(length) : NULL;
    if (block != NULL) {
        left -= (sqlite3_int64)sqlite3_msize(block);
    }
    return block;
}

static void give_block_back(void *block) {
    left += (sqlite3_int64)sqlite3_msize(block);
    sqlite3_free(block);
}

static void close_registry(struct registry *registry) {
    bcs_close(registry->handle);
    sqlite3_free(registry->text);
    *registry = (struct registry){0};
}

/* The registry that was used the longest ago; null if no other than this one is open. */
static struct registry *oldest_but(struct connection *connection, const struct registry *spared) {
    struct registry *oldest = NULL;
    for (size_t number = 0; number < MOST_OPEN; number++) {
        struct registry *registry = &connection->open[number];
        if (registry->text != NULL && registry != spared && (oldest == NULL || registry->used < oldest->used)) {
            oldest = registry;
        }
    }
    return oldest;
}

static bool is_cache_exceeded(const struct connection *connection) {
    sqlite3_int64 bytes = 0;
    for (size_t number = 0; number < MOST_OPEN; number++) {
        bytes += connection->open[number].bytes;
    }
    return bytes > connection->most_cached;
}

/* Closes the registries that weren't used for longest, except for one, until the others are within the limit. */
static void bound_cache(struct connection *connection, const struct registry *spared) {
    struct registry *oldest;
    while (is_cache_exceeded(connection) && (oldest = oldest_but(connection, spared)) != NULL) {
        close_registry(oldest);
    }
}

void limit_cache(struct connection *connection, sqlite3_int64 bytes) {
    connection->most_cached = bytes;
    bound_cache(connection, NULL);
}

static struct registry *find_registry(struct connection *connection, struct piece text) {
    for (size_t number = 0; number < MOST_OPEN; number++) {
        struct registry *registry = &connection->open[number];
        if (registry->text != NULL && registry->length == text.length &&
            memcmp(registry->text, text.at, text.length) == 0) {
            return registry;
        }
    }
    return NULL;
}

static struct registry *free_place(struct connection *connection) {
    struct registry *oldest = oldest_but(connection, NULL);
    for (size_t number = 0; number < MOST_OPEN; number++) {
        if (connection->open[number].text == NULL) {
            return &connection->open[number];
        }
    }
    close_registry(oldest);
    return oldest;
}

static bcs_answer open_registry(struct registry *registry, struct piece text) {
    bcs_answer answer = {.status = BCS_MEMORY};
    *registry = (struct registry){.text = take_block(text.length + 1), .length = text.length};
    if (registry->text == NULL) {
        return answer;
    }
    memcpy(registry->text, text.at, text.length);
    answer = bcs_open(&registry->handle, text.at, text.length);
    if (answer.status != BCS_DONE) {
        give_block_back(registry->text);
    }
    return answer;
}

/* Opens a registry, with so much memory at most. */
static struct registry *cache_registry(sqlite3_context *context, struct piece text, sqlite3_int64 memory) {
    struct connection *connection = sqlite3_user_data(context);
    struct registry opened, *place;
    bcs_answer answer;
    bound_cache(connection, NULL);
    left = memory;
    answer = open_registry(&opened, text);
    if (answer.status != BCS_DONE) {
        refuse_registry(context, text, answer);
        left = NO_LIMIT;
        return NULL;
    }
    opened.bytes = memory - left;
    place = free_place(connection);
    *place = opened;
    return place;
}

struct registry *take_registry(sqlite3_context *context, struct piece text, sqlite3_int64 memory) {
    struct connection *connection = sqlite3_user_data(context);
    struct registry *registry = find_registry(connection, text);
    if (registry == NULL) {
        registry = cache_registry(context, text, memory);
    }
    if (registry != NULL) {
        registry->used = ++connection->uses;
        left = memory - registry->bytes;
    }
    return registry;
}

static void end_statement(void *connection) {
    bound_cache(connection, NULL);
}

/* SQLite keeps what belongs to a constant argument up to the end of the statement. What belongs to another argument, or what it
   has no memory for, it drops at once. */
void give_registry_back(sqlite3_context *context, struct registry *registry, sqlite3_int64 memory) {
    struct connection *connection = sqlite3_user_data(context);
    registry->bytes = memory - left;
    left = NO_LIMIT;
    bound_cache(connection, registry);
    if (is_cache_exceeded(connection) && sqlite3_get_auxdata(context, 0) == NULL) {
        sqlite3_set_auxdata(context, 0, connection, end_statement);
    }
}

void leave_connection(void *pointer) {
    struct connection *connection = pointer;
    if (--connection->functions == 0) {
        for (size_t number = 0; number < MOST_OPEN; number++) {
            close_registry(&connection->open[number]);
        }
        sqlite3_free(connection);
    }
}

struct connection *new_connection(void) {
    struct connection *connection = sqlite3_malloc(sizeof *connection);
    if (connection != NULL) {
        *connection = (struct connection){.most_cached = STANDARD_CACHE};
    }
    return connection;
}
