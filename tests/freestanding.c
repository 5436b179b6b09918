/* Links the archive with nothing but the functions that the header names, which are here, and calls it where there is
 * no C library and no operating system but to end the program. The exit status is the number of the first answer that
 * is not the worked shift's, 0 if all are. For x86-64 Linux, built with -ffreestanding -nostdlib -static. */
#include "slopeboard.h"

void *memcpy(void *to, const void *from, size_t count) {
    for (size_t place = 0; place < count; place++) ((uint8_t *)to)[place] = ((const uint8_t *)from)[place];
    return to;
}

void *memmove(void *to, const void *from, size_t count) {
    if ((uintptr_t)to <= (uintptr_t)from) return memcpy(to, from, count);
    while (count-- > 0) ((uint8_t *)to)[count] = ((const uint8_t *)from)[count];
    return to;
}

void *memset(void *to, int value, size_t count) {
    for (size_t place = 0; place < count; place++) ((uint8_t *)to)[place] = (uint8_t)value;
    return to;
}

static const uint8_t sheet[] = {
    0x47, 0x52, 0x4D, 2, 3, 0, 4,
    0x1F, 1, 1, 0, 0, 0, 60, 0, 100,
    0x15, 2, 0, 30, 0, 150,
    0x1F, 1, 2, 0, 0, 0, 120, 0, 80,
    0x1D, 3, 0, 120, 0, 60, 0, 90,
};

int answers(void) {
    uint8_t board[SLOPEBOARD_BOARD_BYTES(4)], map[1];
    uint16_t prices[3 + 4];
    slopeboard_plan_answer planned = slopeboard_plan(sheet, sizeof sheet, board, sizeof board);
    if (planned.refusal != 0 || planned.bytes != 28) return 1;
    slopeboard_check_answer checked = slopeboard_check(sheet, sizeof sheet, board, planned.bytes);
    if (checked.refusal != 0 || checked.worth != 240 || checked.ceiling != 340) return 2;
    slopeboard_refine_answer refined = slopeboard_refine(sheet, sizeof sheet, 9, board, sizeof board, prices, 3 + 4);
    if (refined.refusal != 0 || refined.worth != 240 || refined.limit != 240) return 3;
    slopeboard_improve_answer improved = slopeboard_improve(sheet, sizeof sheet, 1000, map, sizeof map);
    if (improved.refusal != 0 || !improved.whole || improved.visits != 11 || map[0] != 0x0A) return 4;
    return slopeboard_open(sheet, sizeof sheet) == SLOPEBOARD_MALFORMED_BOARD ? 0 : 5;
}

/* Entered with the stack pointer at a multiple of 16; system call 60 ends the program. */
__asm__(".globl _start\n_start: call answers\n movl %eax, %edi\n movl $60, %eax\n syscall");
