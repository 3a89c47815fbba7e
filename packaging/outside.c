/* What the proved program calls on a machine for which the toolchain has no C library, and `main`: trusted, not proved; checks/machines
 * tests it. Above each function is the contract that the program relies on. The rest, malloc to memset, is the machine's C library. */
#include <errno.h>
#include <stdint.h>
#include <stdlib.h>
static size_t count; static char **words; /* the command words */
char um_none[16];
int um_main(int, char **);
/* rattle_arg: puts word i at `to`, and answers its length; or -1 if there is none, or -2 if it does not fit, and then `to` is full. */
int64_t rattle_arg(size_t i, char *to, size_t room)
{
	size_t n = 0;
	if (i >= count) return -1;
	for (; words[i][n] && n < room; n++) to[n] = words[i][n];
	return words[i][n] ? -2 : (int64_t)n;
}
int rattle_errno(void) { return errno; } /* the error of the last call that failed, as C numbers it */
void rattle_set_errno(int number) { errno = number; }
/* rattle_alloc: 1 and memory of this size and alignment, which divides 16; or 0 and a pointer that is not null. rattle_realloc: 1 and such
 * memory that begins as `at` did, which is gone; or 0 and such a pointer, and `at` is as it was. rattle_dealloc: gives memory back. */
void *um_alloc(size_t size, size_t align) { return malloc(size ? size : align); }
void *um_realloc(void *at, size_t old, size_t size, size_t align) { return (void)old, realloc(at, size ? size : align); }
void rattle_dealloc(void *at) { free(at); }
#ifdef _WIN32
#include <windows.h> /* the program expects the two in rax and rdx, where C on Windows does not put them */
#define PAIR(name, call) __asm__(".globl " name "\n.seh_proc " name "\n" name ": sub $40, %rsp\n.seh_stackalloc 40\n.seh_endprologue\n" \
	"call " call "; xor %ecx, %ecx; lea um_none(%rip), %rdx; test %rax, %rax; setne %cl; cmovne %rax, %rdx; mov %rcx, %rax\n" \
	"add $40, %rsp; ret\n.seh_endproc")
PAIR("rattle_alloc", "um_alloc");
PAIR("rattle_realloc", "um_realloc");
#define STREAM GetStdHandle(STD_INPUT_HANDLE - (DWORD)number)
/* read: puts at most `room` octets at `to` as they are, and answers how many, 0 at the end of the input, or -1. From a console the end of
 * a line is LF, as from a terminal. Ctrl-C aborts a call with nothing read, which begins again until the system ends the program. */
int64_t um_read(int number, char *to, size_t room)
{
	DWORD moved = 0, mode;
	for (errno = EIO, SetLastError(0); ReadFile(STREAM, to, room < 32768 ? (DWORD)room : 32768, &moved, NULL); SetLastError(0)) {
		if (moved > 1 && !memcmp(to + moved - 2, "\r\n", 2) && GetConsoleMode(STREAM, &mode)) to[--moved - 1] = '\n';
		if (moved || GetLastError() != ERROR_OPERATION_ABORTED) return moved;
	}
	return GetLastError() == ERROR_BROKEN_PIPE ? 0 : -1;
}
/* write: takes some of the first octets as they are, and answers how many, or -1. */
int64_t um_write(int number, const void *from, size_t size)
{
	DWORD moved = (errno = EIO, 0);
	return WriteFile(STREAM, from, size < 32768 ? (DWORD)size : 32768, &moved, NULL) ? (int64_t)moved : -1;
}
void *um_signal(int number, void *action) { return (void)number, action; } /* there is no SIGPIPE to ignore */
void __main(void) { } /* there are no constructors to run */
int __wgetmainargs(int *, wchar_t ***, wchar_t ***, int, int *);
void um_start(void) /* the words as UTF-8; in place of one that is not Unicode an octet that is not UTF-8. MinGW's start checks no malloc */
{
	wchar_t **wide = NULL, **variables;
	int size, n = 0, mode = 0;
	if (__wgetmainargs(&n, &wide, &variables, 0, &mode), !wide || !(words = calloc((size_t)n + 1, sizeof *words))) ExitProcess(6);
	for (; count < (size_t)n; count++) {
		size = WideCharToMultiByte(CP_UTF8, WC_ERR_INVALID_CHARS, wide[count], -1, NULL, 0, NULL, NULL);
		if (!(words[count] = size ? malloc((size_t)size) : "\xff")) ExitProcess(6);
		if (size) WideCharToMultiByte(CP_UTF8, 0, wide[count], -1, words[count], size, NULL, NULL);
	}
	ExitProcess((UINT)um_main(n, words));
}
#else
static struct pair { uint64_t is_got; void *at; } pair(void *at) { return (struct pair){ at != NULL, at ? at : um_none }; }
struct pair rattle_alloc(size_t size, size_t align) { return pair(um_alloc(size, align)); }
struct pair rattle_realloc(void *at, size_t old, size_t size, size_t align) { return pair(um_realloc(at, old, size, align)); }
int main(int n, char **given) { return count = (size_t)n, words = given, um_main(n, given); }
#endif
#ifdef __x86_64__
#include <cpuid.h>
/* __x86_get_cpuid_feature_leaf: in the last four of the numbers what the processor can, of cpuid 1, 7 or 0x80000001; as glibc's */
const unsigned *__x86_get_cpuid_feature_leaf(unsigned leaf)
{
	static unsigned leaves[3] = { 1, 7, 0x80000001 }, features[4][8], *f;
	f = features[leaf < 3 ? leaf : 3] + 4;
	if (leaf < 3) __get_cpuid_count(leaves[leaf], 0, f, f + 1, f + 2, f + 3);
	return f - 4;
}
#endif
