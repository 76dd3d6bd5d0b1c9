# A guest that sends a frame of 60 bytes on each of NICS nics in every tick, and takes each frame that arrives: every queue has one
# descriptor, and its head is made available once a tick. The devices are set up as virtio 1.2 has it (sections 3.1.1 and 4.2.2).
    .equ SLOTS, 0x10001000
    .equ RINGS, 0x80001000          # 0x100 bytes a queue: descriptors at 0, available ring at 0x40, used ring at 0x80
    .equ FRAME, 0x80003000          # header and frame
    .globl _start
_start:
    li s0, SLOTS
    li s1, RINGS
    li s2, NICS
each_nic:
    li t0, 3                        # ACKNOWLEDGE, DRIVER
    sw t0, 0x70(s0)
    li t0, 1                        # VERSION_1 is bit 32
    sw t0, 0x24(s0)
    sw t0, 0x20(s0)
    li t0, 11                       # FEATURES_OK
    sw t0, 0x70(s0)
    li t1, 0                        # queue 0 receives, into a buffer of its own; queue 1 sends
    li t2, 2                        # the device writes into the buffer of queue 0
each_queue:
    sw t1, 0x30(s0)
    li t0, 4
    sw t0, 0x38(s0)
    sw s1, 0x80(s0)
    addi t0, s1, 0x40
    sw t0, 0x90(s0)
    addi t0, s1, 0x80
    sw t0, 0xa0(s0)
    li t0, FRAME
    beqz t2, 1f
    addi t0, t0, 0x100
1:  sw t0, 0(s1)
    li t0, 72
    sw t0, 8(s1)
    sh t2, 12(s1)
    li t0, 1
    sw t0, 0x44(s0)
    addi s1, s1, 0x100
    addi t1, t1, 1
    li t2, 0
    li t0, 2
    bne t1, t0, each_queue
    li t0, 15                       # DRIVER_OK
    sw t0, 0x70(s0)
    addi s2, s2, -1
    li t0, 0x1000
    add s0, s0, t0
    bnez s2, each_nic

    li s3, 0                        # how many ticks there were
    csrr s4, time
each_tick:
    addi s3, s3, 1
    li s0, SLOTS
    li s1, RINGS
    li t2, 1
    .rept NICS
    sh s3, 0x42(s1)                 # one more buffer to receive into, and one more frame to send
    sh s3, 0x142(s1)
    sw t2, 0x50(s0)
    addi s1, s1, 0x200
    li t0, 0x1000
    add s0, s0, t0
    .endr
wait:
    csrr t0, time
    beq t0, s4, wait
    mv s4, t0
    j each_tick
