/* The registries that are open in this process. At the end of a statement, those that aren't within the setting
 * bcs.registry_cache are closed, and within a statement only the one that was used last may exceed it. */
#include "bcs_pg.h"

#include <limits.h>

#include "nodes/parsenodes.h"
#include "tcop/utility.h"
#include "utils/guc.h"
#include "utils/memutils.h"

/* bcs.registry_cache, in kB. */
#define STANDARD_CACHE (32 * 1024)
static int	most_cached = STANDARD_CACHE;

static Registry registries[MOST_OPEN];
static uint64 uses = 0;

/* Whether the end of the statement closes what exceeds the setting. */
static bool is_end_awaited = false;
static MemoryContextCallback at_end;

static ProcessUtility_hook_type next_utility;

static bool
is_open(const Registry *registry)
{
	return registry->number != 0;
}

static void
close_registry(Registry *registry)
{
	bcs_close(registry->handle);
	MemoryContextDelete(registry->context);
	*registry = (Registry) {0};
}

void
close_names(void)
{
	for (int place = 0; place < MOST_OPEN; place++)
	{
		if (is_open(&registries[place]) && registries[place].is_name)
			close_registry(&registries[place]);
	}
}

static void
close_all(void)
{
	for (int place = 0; place < MOST_OPEN; place++)
	{
		if (is_open(&registries[place]))
			close_registry(&registries[place]);
	}
}

/* The registry that was used the longest ago; NULL if no other than this one is open. */
static Registry *
oldest_but(const Registry *spared)
{
	Registry   *oldest = NULL;

	for (int place = 0; place < MOST_OPEN; place++)
	{
		Registry   *registry = &registries[place];

		if (is_open(registry) && registry != spared && (oldest == NULL || registry->used < oldest->used))
			oldest = registry;
	}
	return oldest;
}

static bool
is_cache_exceeded(void)
{
	Size		bytes = 0;

	for (int place = 0; place < MOST_OPEN; place++)
	{
		if (is_open(&registries[place]))
			bytes += MemoryContextMemAllocated(registries[place].context, false);
	}
	return bytes > (Size) most_cached * 1024;
}

static void
end_statement(void *unused)
{
	is_end_awaited = false;
	bound_cache(NULL);
}

/* A statement ends with the message of the client, or with the transaction in a process without messages. */
static void
await_end(void)
{
	if (is_end_awaited)
		return;
	at_end.func = end_statement;
	MemoryContextRegisterResetCallback(MessageContext != NULL ? MessageContext : TopTransactionContext, &at_end);
	is_end_awaited = true;
}

void
bound_cache(const Registry *used)
{
	Registry   *oldest;

	while (is_cache_exceeded() && (oldest = oldest_but(used)) != NULL)
		close_registry(oldest);
	if (is_cache_exceeded())
		await_end();
}

Registry *
find_registry(struct piece text, bool is_name)
{
	for (int place = 0; place < MOST_OPEN; place++)
	{
		Registry   *registry = &registries[place];

		if (is_open(registry) && registry->is_name == is_name && registry->text.length == text.length &&
			memcmp(registry->text.at, text.at, text.length) == 0)
			return registry;
	}
	return NULL;
}

static Registry *
free_place(void)
{
	Registry   *oldest = oldest_but(NULL);

	for (int place = 0; place < MOST_OPEN; place++)
	{
		if (!is_open(&registries[place]))
			return &registries[place];
	}
	close_registry(oldest);
	return oldest;
}

Registry *
cache_registry(Registry opened)
{
	Registry   *registry = free_place();

	*registry = opened;
	registry->number = ++uses;
	return registry;
}

void
use_registry(Registry *registry)
{
	registry->used = ++uses;
}

static void
run_utility(PlannedStmt *statement, const char *text, bool is_read_only, ProcessUtilityContext context,
			ParamListInfo parameters, QueryEnvironment *environment, DestReceiver *receiver, QueryCompletion *completion)
{
	const DiscardStmt *discard = (const DiscardStmt *) statement->utilityStmt;
	const bool	is_all = IsA(discard, DiscardStmt) && discard->target == DISCARD_ALL;

	(next_utility != NULL ? next_utility : standard_ProcessUtility) (statement, text, is_read_only, context, parameters,
																	 environment, receiver, completion);
	if (is_all)
		close_all();
}

void
define_cache(void)
{
	DefineCustomIntVariable("bcs.registry_cache", "Limits the memory of the registries that stay open after a statement.", NULL,
							&most_cached, STANDARD_CACHE, 0, MAX_KILOBYTES, PGC_SUSET, GUC_UNIT_KB, NULL, NULL, NULL);
	next_utility = ProcessUtility_hook;
	ProcessUtility_hook = run_utility;
}
