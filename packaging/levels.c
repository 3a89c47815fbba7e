/* Which of two builds of the proved library serves on x86-64: trusted, not proved. CALLS names a file with a line EITHER(call) for each
 * call of um.h. A call jumps to call.v2 if the processor has level v2, and otherwise to call.v1, as all do before find_level has run. */
__attribute__((used)) static unsigned char um_has_level_2;

static unsigned third_of_cpuid(unsigned leaf)
{
	unsigned b, c = 0, d;
	__asm__ volatile("cpuid" : "+a"(leaf), "=b"(b), "+c"(c), "=d"(d));
	return c;
}

/* SSE3, SSSE3, CMPXCHG16B, SSE4.1, SSE4.2 and POPCNT, and LAHF: all that the psABI's level x86-64-v2 adds */
__attribute__((constructor)) static void find_level(void)
{
	um_has_level_2 = (third_of_cpuid(1) & 0x982201) == 0x982201 && third_of_cpuid(0x80000001) & 1;
}

#define EITHER(call) __asm__( \
	".pushsection .text." #call ",\"ax\",@progbits\n.p2align 4\n.globl " #call "\n.type " #call ",@function\n" \
	".hidden " #call ".v1\n.hidden " #call ".v2\n" #call ": .cfi_startproc\n\tcmpb $0, um_has_level_2(%rip)\n" \
	"\tjne " #call ".v2\n\tjmp " #call ".v1\n.cfi_endproc\n.size " #call ", . - " #call "\n.popsection");
#include CALLS
