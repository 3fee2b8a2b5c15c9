/*
 * The first instructions of the kernel. A Multiboot loader, as qemu's -kernel is one, begins here in
 * 32-bit protected mode, with interrupts off. The first GiB is mapped to itself in pages of 2 MiB, SSE is
 * enabled, since the library uses it, and the processor goes to 64-bit mode.
 */
    .set MULTIBOOT_MAGIC, 0x1BADB002
    .set MULTIBOOT_FLAGS, 0
    .section .multiboot, "a"
    .align 4
    .long MULTIBOOT_MAGIC, MULTIBOOT_FLAGS, -(MULTIBOOT_MAGIC + MULTIBOOT_FLAGS)

    .bss
    .align 4096
page_map:       .skip 4096
page_pointers:  .skip 4096
page_directory: .skip 4096
    .align 16
stack:          .skip 131072    /* xvfs_open takes 76 KiB of it */
stack_top:

    .data
    .align 8
/* Nothing, 64-bit code, data. */
segments:       .quad 0, 0x00209A0000000000, 0x0000920000000000
segments_at:    .word 23
                .long segments

    .text
    .code32
    .globl start
start:
    cli
    movl $stack_top, %esp
    /* Each table's first entry: present, writable. */
    movl $page_pointers + 3, page_map
    movl $page_directory + 3, page_pointers
    movl $page_directory, %edi
    movl $0x83, %eax            /* present, writable, of 2 MiB */
    movl $512, %ecx
next_page:
    movl %eax, (%edi)
    movl $0, 4(%edi)
    addl $0x200000, %eax
    addl $8, %edi
    loop next_page
    movl $page_map, %eax
    movl %eax, %cr3
    movl %cr4, %eax
    orl $0x620, %eax            /* physical address extension; SSE, and its faults */
    movl %eax, %cr4
    movl $0xC0000080, %ecx      /* the register of extended features */
    rdmsr
    orl $0x100, %eax            /* 64-bit mode */
    wrmsr
    movl %cr0, %eax
    andl $0xFFFFFFF3, %eax      /* floating point is neither emulated nor switched */
    orl $0x80000003, %eax       /* paging */
    movl %eax, %cr0
    lgdt segments_at
    ljmp $8, $start_64

    .code64
start_64:
    movw $16, %ax
    movw %ax, %ds
    movw %ax, %es
    movw %ax, %ss
    movq $stack_top, %rsp
    xorl %ebp, %ebp
    call kernel
forever:
    hlt
    jmp forever
    .section .note.GNU-stack, "", @progbits
