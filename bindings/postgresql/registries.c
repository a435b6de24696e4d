/* The registry of a call: its text, or its name in the table bcs_registries. A function whose first argument is of the type text
 * accepts both, and one of the type json only the text of a registry: no change of the table changes its answers. Nothing here
 * names an object by a search path, and no SQL is run. */
#include "bcs_pg.h"

#include "access/genam.h"
#include "access/htup_details.h"
#include "access/table.h"
#include "catalog/pg_type.h"
#include "commands/trigger.h"
#include "mb/pg_wchar.h"
#include "miscadmin.h"
#include "nodes/primnodes.h"
#include "utils/builtins.h"
#include "utils/fmgroids.h"
#include "utils/inval.h"
#include "utils/lsyscache.h"
#include "utils/memutils.h"
#include "utils/rel.h"

/* The table of names as it was found last, and whether it has changed since. */
static Oid	names_table = InvalidOid;
static bool have_names_changed = false;

/* What a call in a query keeps for its next row. */
typedef struct Kept
{
	bool		takes_names;
	bool		is_constant;	/* the argument is the same in all calls */
	Registry   *registry;
	uint64		number;
} Kept;

/* A name begins with a letter or _, which no JSON of a registry does. */
bool
is_registry_name(struct piece text)
{
	return text.length > 0 && (isalpha(text.at[0]) || text.at[0] == '_') && !IS_HIGHBIT_SET(text.at[0]);
}

/* A call may be using a registry when this comes, so this only takes a note. */
static void
note_change(Datum argument, Oid relation)
{
	if (relation == InvalidOid || relation == names_table)
		have_names_changed = true;
}

void
watch_names(void)
{
	CacheRegisterRelcacheCallback(note_change, (Datum) 0);
}

static void
close_changed_names(void)
{
	if (!have_names_changed)
		return;
	have_names_changed = false;
	close_names();
}

/* All processes learn of a change of the table when its transaction commits, and this one also if it is rolled back. It is called
 * before a statement, since a function in the statement may use a row that it has just written; and after each row, as the only
 * trigger that fires where the rows come by logical replication. */
PG_FUNCTION_INFO_V1(bcs_pg_registries_changed);

Datum
bcs_pg_registries_changed(PG_FUNCTION_ARGS)
{
	if (!CALLED_AS_TRIGGER(fcinfo))
		ereport(ERROR, (errcode(ERRCODE_E_R_I_E_TRIGGER_PROTOCOL_VIOLATED), errmsg("bcs_registries_changed is a trigger")));
	CacheInvalidateRelcache(((TriggerData *) fcinfo->context)->tg_relation);
	return PointerGetDatum(NULL);
}

static pg_attribute_noreturn() void
refuse_name(struct piece name)
{
	const struct piece utf8 = utf8_of(name);
	char	   *shown = palloc(write_names(ONE_NAME, utf8, NULL) + 1);

	shown[write_names(ONE_NAME, utf8, shown)] = '\0';
	ereport(ERROR,
			(errcode(ERRCODE_INVALID_PARAMETER_VALUE),
			 errmsg("bcs: no registry is called %s", shown),
			 errhint("The table bcs_registries has their names, and pg_read_file('..') reads a registry from a file.")));
	pg_unreachable();
}

/* The text of a name in the table, which is in the function's schema. The newest snapshot is used, as for a catalog: with that of
 * the query an older text could stay open after the change was reported. */
static struct piece
text_of_name(FunctionCallInfo fcinfo, struct piece name)
{
	Oid			schema = get_func_namespace(fcinfo->flinfo->fn_oid);
	Oid			table = get_relname_relid("bcs_registries", schema);
	text	   *registry = NULL;
	Relation	relation;
	SysScanDesc scan;
	ScanKeyData key;
	HeapTuple	row;

	if (!OidIsValid(table))
		refuse_name(name);
	names_table = table;
	relation = table_open(table, AccessShareLock);
	ScanKeyInit(&key, 1, InvalidStrategy, F_TEXTEQ,
				PointerGetDatum(cstring_to_text_with_len((const char *) name.at, name.length)));
	scan = systable_beginscan(relation, InvalidOid, false, NULL, 1, &key);
	row = systable_getnext(scan);
	if (HeapTupleIsValid(row))
	{
		bool		is_null;
		Datum		value = heap_getattr(row, 2, RelationGetDescr(relation), &is_null);

		registry = is_null ? NULL : DatumGetTextPCopy(value);
	}
	systable_endscan(scan);
	table_close(relation, AccessShareLock);
	if (registry == NULL)
		refuse_name(name);
	return (struct piece) {(const uint8_t *) VARDATA(registry), VARSIZE(registry) - VARHDRSZ};
}

/* Opens a registry in a context of its own, which is deleted with that of the query if there is an error. */
static Registry
open_registry(FunctionCallInfo fcinfo, struct piece text, bool is_name)
{
	const struct piece json = utf8_of(is_name ? text_of_name(fcinfo, text) : text);
	Registry	registry = {
		.context = AllocSetContextCreate(CurrentMemoryContext, "bcs registry", ALLOCSET_DEFAULT_SIZES),
		.is_name = is_name,
	};
	MemoryContext outer = MemoryContextSwitchTo(registry.context);
	char	   *kept = pnstrdup((const char *) text.at, text.length);
	bcs_answer	answer = bcs_open(&registry.handle, json.at, json.length);

	MemoryContextSwitchTo(outer);
	CHECK_FOR_INTERRUPTS();
	if (answer.status != BCS_DONE)
		refuse_registry(json, answer);
	registry.text = (struct piece) {(const uint8_t *) kept, text.length};
	MemoryContextSetIdentifier(registry.context, kept);
	MemoryContextSetParent(registry.context, CacheMemoryContext);
	return registry;
}

static Registry *
registry_of(FunctionCallInfo fcinfo, struct piece text, bool is_name)
{
	Registry   *registry = find_registry(text, is_name);

	if (registry == NULL)
	{
		bound_cache(NULL);
		registry = cache_registry(open_registry(fcinfo, text, is_name));
	}
	return registry;
}

/* A parameter of a query has one value in all of its rows, but PL/pgSQL keeps an expression for calls with other values. */
static bool
has_constant_registry(const FmgrInfo *function)
{
	const FuncExpr *call = (const FuncExpr *) function->fn_expr;

	return call != NULL && IsA(call, FuncExpr) && IsA(linitial(call->args), Const);
}

static Kept *
kept_of_call(FunctionCallInfo fcinfo)
{
	FmgrInfo   *function = fcinfo->flinfo;
	Oid		   *types;
	int			count;
	Kept	   *kept;

	if (function->fn_extra == NULL)
	{
		(void) get_func_signature(function->fn_oid, &types, &count);
		kept = MemoryContextAllocZero(function->fn_mcxt, sizeof *kept);
		kept->takes_names = types[0] == TEXTOID;
		kept->is_constant = has_constant_registry(function);
		function->fn_extra = kept;
	}
	return function->fn_extra;
}

/* If the argument is a constant, it is looked at once. */
const Registry *
registry_of_call(FunctionCallInfo fcinfo)
{
	Kept	   *kept = kept_of_call(fcinfo);

	/* Within a transaction nothing else may ask what others have committed, since a call locks no table. */
	if (kept->takes_names)
		AcceptInvalidationMessages();
	close_changed_names();
	if (!kept->is_constant || kept->registry == NULL || kept->registry->number != kept->number)
	{
		const struct piece text = argument(fcinfo, 0);

		kept->registry = registry_of(fcinfo, text, kept->takes_names && is_registry_name(text));
		kept->number = kept->registry->number;
	}
	use_registry(kept->registry);
	return kept->registry;
}
