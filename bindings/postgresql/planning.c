/* Tells the planner that a call with the text of a registry is immutable, and that a call with the name of one is stable. */
#include "bcs_pg.h"

#include "catalog/pg_proc.h"
#include "catalog/pg_type.h"
#include "nodes/makefuncs.h"
#include "nodes/supportnodes.h"
#include "utils/builtins.h"
#include "utils/lsyscache.h"
#include "utils/syscache.h"

/* The function of the same name, in the same schema, with the same types but json at first. */
static Oid
function_of_json(Oid function)
{
	Oid		   *types;
	int			count;
	char	   *name = get_func_name(function);

	if (name == NULL)
		return InvalidOid;
	(void) get_func_signature(function, &types, &count);
	types[0] = JSONOID;
	return GetSysCacheOid3(PROCNAMEARGSNSP, Anum_pg_proc_oid, CStringGetDatum(name),
						   PointerGetDatum(buildoidvector(types, count)), ObjectIdGetDatum(get_func_namespace(function)));
}

/* A constant text that is no name is the registry itself, so the function over json answers the same. */
static Node *
call_of_json(const FuncExpr *call)
{
	const Const *registry = linitial(call->args);
	struct varlena *text;
	FuncExpr   *simplified;
	Oid			function;

	if (!IsA(registry, Const) || registry->consttype != TEXTOID || registry->constisnull)
		return NULL;
	text = PG_DETOAST_DATUM_PACKED(registry->constvalue);
	if (is_registry_name((struct piece) {(const uint8_t *) VARDATA_ANY(text), VARSIZE_ANY_EXHDR(text)}))
		return NULL;
	function = function_of_json(call->funcid);
	if (!OidIsValid(function))
		return NULL;
	simplified = copyObject(unconstify(FuncExpr *, call));
	simplified->funcid = function;
	linitial(simplified->args) = makeConst(JSONOID, -1, InvalidOid, -1, PointerGetDatum(text), false, false);
	return (Node *) simplified;
}

PG_FUNCTION_INFO_V1(bcs_pg_support);

Datum
bcs_pg_support(PG_FUNCTION_ARGS)
{
	Node	   *request = (Node *) PG_GETARG_POINTER(0);

	if (!IsA(request, SupportRequestSimplify))
		PG_RETURN_POINTER(NULL);
	PG_RETURN_POINTER(call_of_json(((SupportRequestSimplify *) request)->fcall));
}
