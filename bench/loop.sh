# Sourced by the benches that run a program: a loop of eighteen instructions, as $words.
# lui x4,0x80001; addi x1,x0,0; loop: addi x1,x1,1; add x2,x2,x1; xor x3,x1,x2; slli x5,x3,7; srli x6,x3,3;
# sub x5,x5,x6; andi x7,x1,2044; add x8,x4,x7; sw x5,0(x8); lw x9,0(x8); sb x3,5(x8); lbu x10,4(x8);
# add x6,x9,x10; mul x7,x6,x5; bltu x7,x6,skip; addi x11,x11,3; skip: sltu x12,x7,x6; bne x1,x0,loop
words="0x80001237, 0x00000093, 0x00108093, 0x00110133, 0x0020c1b3, 0x00719293, 0x0031d313, 0x406282b3, \
0x7fc0f393, 0x00720433, 0x00542023, 0x00042483, 0x003402a3, 0x00444503, 0x00a48333, 0x025303b3, 0x0063e463, \
0x00358593, 0x0063b633, 0xfa009ee3"
