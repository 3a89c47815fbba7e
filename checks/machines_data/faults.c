/* Linked by --wrap between a program's object, outside.c and the C library: makes one call of the outside fail, as UM_FAULT says.
 *
 *   UM_FAULT="read 3"    the third read fails; write, malloc and realloc as well; "short" halves each read and write in place of failing */
#include <errno.h>
#include <stdint.h>
#include <stdio.h>
#include <stdlib.h>
#include <string.h>

static int calls[4];
static const char *kinds[4] = { "read", "write", "malloc", "realloc" };

static int fails(int kind, int error)
{
	const char *fault = getenv("UM_FAULT");
	size_t length = strlen(kinds[kind]);
	calls[kind]++;
	if (!fault || strncmp(fault, kinds[kind], length) || fault[length] != ' ' || atoi(fault + length) != calls[kind]) return 0;
	errno = strstr(fault, "interrupted") ? EINTR : error;
	return 1;
}

static size_t part(size_t size) { return size > 1 && getenv("UM_FAULT") && !strcmp(getenv("UM_FAULT"), "short") ? size / 2 : size; }

#ifdef _WIN32
#define READ um_read
#define WRITE um_write
#else
#define READ read
#define WRITE write
#endif
#define NAME_(before, name) before##name
#define NAME(before, name) NAME_(before, name)
int64_t NAME(__real_, READ)(int number, void *to, size_t room);
int64_t NAME(__real_, WRITE)(int number, const void *from, size_t size);
void *__real_malloc(size_t size);
void *__real_realloc(void *at, size_t size);
int64_t NAME(__wrap_, READ)(int number, void *to, size_t room) { return fails(0, EIO) ? -1 : NAME(__real_, READ)(number, to, part(room)); }
int64_t NAME(__wrap_, WRITE)(int number, const void *from, size_t size)
{
	return fails(1, EIO) ? -1 : NAME(__real_, WRITE)(number, from, part(size));
}
void *__wrap_malloc(size_t size) { return fails(2, ENOMEM) ? NULL : __real_malloc(size); }
void *__wrap_realloc(void *at, size_t size) { return fails(3, ENOMEM) ? NULL : __real_realloc(at, size); }
