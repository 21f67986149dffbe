/* For the address sanitizer under the kit's emulator, linked in with --wrap. The sanitizer reads /proc/self/maps to find where
 * the stack lies, and this emulator (QEMU 8.2.2) ends with a fault where a program opens that file. What it is given here is one
 * line, for a stack around the present frame. It unmaps the page itself. */
#define _GNU_SOURCE
#include <stddef.h>
#include <stdint.h>
#include <sys/mman.h>
#include <sys/syscall.h>
#include <unistd.h>

enum { PAGE = 4096, BELOW = 4 << 20 };

struct maps { char *text; size_t mapped, length; };

/* __sanitizer::ReadProcMaps(__sanitizer::ProcSelfMapsBuff *) */
void __wrap__ZN11__sanitizer12ReadProcMapsEPNS_16ProcSelfMapsBuffE(struct maps *maps);

void __wrap__ZN11__sanitizer12ReadProcMapsEPNS_16ProcSelfMapsBuffE(struct maps *maps) {
    uintptr_t frame = (uintptr_t)__builtin_frame_address(0) / PAGE * PAGE;
    char *text = (char *)syscall(SYS_mmap, 0, PAGE, PROT_READ | PROT_WRITE, MAP_PRIVATE | MAP_ANONYMOUS, -1, 0);
    static const char digits[] = "0123456789abcdef", rest[] = " rw-p 00000000 00:00 0 [stack]\n";
    char *end = text;
    for (int shift = 60; shift >= 0; shift -= 4) *end++ = digits[(frame - BELOW) >> shift & 15];
    *end++ = '-';
    for (int shift = 60; shift >= 0; shift -= 4) *end++ = digits[(frame + PAGE) >> shift & 15];
    for (const char *c = rest; *c; c++) *end++ = *c;
    maps->text = text;
    maps->mapped = PAGE;
    maps->length = (size_t)(end - text);
}
