/*
 * A malloc, calloc, realloc and posix_memalign before the C library's, that refuse growths by order: those from the
 * first to the last, counted from the order on. bench/refuse compiles it, and has it loaded by LD_PRELOAD.
 *
 *     gcc -shared -fPIC -O2 -o refuse.so refuse.c
 *
 * The orders lie in a file of 32 bytes that REFUSE_ORDERS names, which both sides map: four numbers of 64 bits. All
 * growths are counted, those that are refused too. While the first is 0 nothing is refused.
 */
#define _GNU_SOURCE
#include <errno.h>
#include <fcntl.h>
#include <stdatomic.h>
#include <stdbool.h>
#include <stdint.h>
#include <stdlib.h>
#include <sys/mman.h>
#include <unistd.h>

struct orders {
	_Atomic uint64_t count, first, last, refused;
};

/* What the C library does, under names of its own. */
extern void *__libc_malloc(size_t);
extern void *__libc_calloc(size_t, size_t);
extern void *__libc_realloc(void *, size_t);
extern void *__libc_memalign(size_t, size_t);

static struct orders *orders;

__attribute__((constructor)) static void take_orders(void)
{
	const char *name = getenv("REFUSE_ORDERS");
	int file = name ? open(name, O_RDWR | O_CLOEXEC) : -1;
	if (file < 0)
		return;
	void *mapped = mmap(NULL, sizeof(struct orders), PROT_READ | PROT_WRITE, MAP_SHARED, file, 0);
	close(file);
	if (mapped != MAP_FAILED)
		orders = mapped;
}

/* Whether this growth is refused. */
static bool is_refused(void)
{
	if (!orders)
		return false;
	uint64_t number = atomic_fetch_add(&orders->count, 1) + 1;
	uint64_t first = atomic_load(&orders->first);
	if (first == 0 || number < first || number > atomic_load(&orders->last))
		return false;
	atomic_fetch_add(&orders->refused, 1);
	errno = ENOMEM;
	return true;
}

void *malloc(size_t size)
{
	return is_refused() ? NULL : __libc_malloc(size);
}

void *calloc(size_t count, size_t size)
{
	return is_refused() ? NULL : __libc_calloc(count, size);
}

void *realloc(void *old, size_t size)
{
	/* A size of 0 gives memory back. */
	bool grows = size != 0 || old == NULL;
	return grows && is_refused() ? NULL : __libc_realloc(old, size);
}

int posix_memalign(void **place, size_t alignment, size_t size)
{
	if (is_refused())
		return ENOMEM;
	void *found = __libc_memalign(alignment, size);
	if (!found)
		return ENOMEM;
	*place = found;
	return 0;
}

void *aligned_alloc(size_t alignment, size_t size)
{
	return is_refused() ? NULL : __libc_memalign(alignment, size);
}
