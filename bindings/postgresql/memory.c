/* The heap of the proved code: the current memory context, so that the end of a query frees what the query took, and the server
 * counts it. Nothing here may raise an error, since that would jump over the proved code: a lack of memory is returned, and raised
 * when the call has ended.
 *
 * A call doesn't check for signals. So a session that is cancelled or ended gets no more memory, and that ends the call. */
#include "bcs_pg.h"

#include "miscadmin.h"
#include "utils/memutils.h"

#include "heap.h"

static bool
is_to_end(void)
{
	return InterruptPending && (QueryCancelPending || ProcDiePending) && INTERRUPTS_CAN_BE_PROCESSED();
}

static void *
take_block(size_t length)
{
	if (is_to_end() || !AllocHugeSizeIsValid(length))
		return NULL;
	return MemoryContextAllocExtended(CurrentMemoryContext, length, MCXT_ALLOC_HUGE | MCXT_ALLOC_NO_OOM);
}

static void
give_block_back(void *block)
{
	pfree(block);
}
