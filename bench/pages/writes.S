# Writes 16 KiB to the first sectors of each of two disks (virtio 1.2, sections 4.2 and 5.2), waits until both are done, and turns
# the power off. The rings of a disk stand in a page of their own, from 0x80010000 on: table at 0, header at 0x100, status at 0x200,
# available ring at 0x400, used ring at 0x600.
    .globl _start
_start:
    li s0, 0x10001000
    li s1, 2
    li s2, 0x80010000
    li s3, 0x1000
disk:
    li t0, 3
    sw t0, 0x70(s0)
    li t0, 1
    sw t0, 0x24(s0)
    sw t0, 0x20(s0)
    li t0, 11
    sw t0, 0x70(s0)
    sw zero, 0x30(s0)
    li t0, 4
    sw t0, 0x38(s0)
    sw s2, 0x80(s0)
    addi t1, s2, 0x400
    sw t1, 0x90(s0)
    addi t1, s2, 0x600
    sw t1, 0xa0(s0)
    li t0, 1
    sw t0, 0x44(s0)
    li t0, 15
    sw t0, 0x70(s0)
    # the header: a write, from sector 0 on
    li t0, 1
    sw t0, 0x100(s2)
    # the descriptors of header, data and status
    addi t1, s2, 0x100
    sw t1, 0(s2)
    li t0, 16
    sw t0, 8(s2)
    li t0, 0x00010001
    sw t0, 12(s2)
    li t1, 0x80020000
    sw t1, 16(s2)
    li t0, 16384
    sw t0, 24(s2)
    li t0, 0x00020001
    sw t0, 28(s2)
    addi t1, s2, 0x200
    sw t1, 32(s2)
    li t0, 1
    sw t0, 40(s2)
    li t0, 2
    sw t0, 44(s2)
    # one chain is available
    li t0, 0x00010000
    sw t0, 0x400(s2)
    sw zero, 0x50(s0)
    add s0, s0, s3
    add s2, s2, s3
    addi s1, s1, -1
    bnez s1, disk
    li s2, 0x80010000
first:
    lhu t0, 0x602(s2)
    beqz t0, first
    add s2, s2, s3
second:
    lhu t0, 0x602(s2)
    beqz t0, second
    li t0, 0x100000
    li t1, 0x5555
    sw t1, 0(t0)
end:
    j end
