/* From the reset vector, or from a multiboot loader, to C in long mode: the first GIGABYTES of addresses are mapped as they
   are, and SSE is on. The image is a flat binary that lies at 1 MB; its last 4 KB in the ROM are reset.S. */

#define PRESENT_WRITABLE 0x03
#define LARGE 0x80
#define GIGABYTES 40

        .section .multiboot, "a"
        .code32
        .align 4
header: .long 0x1badb002
        .long 0x00010000
        .long -(0x1badb002 + 0x00010000)
        .long header, image_first, image_end, bss_end, start

        .text
        .global start
start:  cli
        cld
        movl    $stack_top, %esp
        movl    $bss_first, %edi
        movl    $bss_end, %ecx
        subl    %edi, %ecx
        xorl    %eax, %eax
        rep stosb

        /* Pages of 2 MB, each at its own address. */
        movl    $directories, %edi
        movl    $(PRESENT_WRITABLE | LARGE), %eax
        xorl    %edx, %edx
        movl    $(512 * GIGABYTES), %ecx
1:      movl    %eax, (%edi)
        movl    %edx, 4(%edi)
        addl    $0x200000, %eax
        adcl    $0, %edx
        addl    $8, %edi
        loop    1b
        movl    $pointers, %edi
        movl    $(directories + PRESENT_WRITABLE), %eax
        movl    $GIGABYTES, %ecx
2:      movl    %eax, (%edi)
        addl    $4096, %eax
        addl    $8, %edi
        loop    2b
        movl    $(pointers + PRESENT_WRITABLE), top
        movl    $top, %eax
        movl    %eax, %cr3

        /* CR4: PAE; OSFXSR and OSXMMEXCPT, without which the library's SSE instructions are invalid. */
        movl    %cr4, %eax
        orl     $0x0620, %eax
        movl    %eax, %cr4
        movl    $0xc0000080, %ecx
        rdmsr
        orl     $0x0100, %eax
        wrmsr
        /* CR0: paging and MP; no emulation of the coprocessor, no task switched. */
        movl    %cr0, %eax
        andl    $~0x0000000c, %eax
        orl     $0x80000002, %eax
        movl    %eax, %cr0
        lgdt    table_of_segments
        ljmp    $8, $in_long_mode

        .code64
in_long_mode:
        movl    $16, %eax
        movl    %eax, %ds
        movl    %eax, %es
        movl    %eax, %ss
        movl    $stack_top, %esp
        call    firmware
        ud2

        .section .rodata
        .align 8
segments:
        .quad   0
        .quad   0x00209a0000000000
        .quad   0x0000920000000000
table_of_segments:
        .word   . - segments - 1
        .long   segments

        .bss
        .align 4096
top:    .skip   4096
pointers:
        .skip   4096
directories:
        .skip   4096 * GIGABYTES
stack:  .skip   128 * 1024
stack_top:

        .section .note.GNU-stack, "", @progbits
