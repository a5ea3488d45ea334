# Controls for branches.py: comparisons that hide a branch on the bytes, or another thing that takes time by them, each in another way
# (refuse_…), and some that have none (pass_…). They are read, never run. See README-tags.md.
.intel_syntax noprefix
.text
.macro f name
.globl \name
\name:
.endm

# the jump is on a counter alone; a difference goes into a register without a jump
f pass_counter;       xor eax, eax; xor ecx, ecx; 1: mov dl, [rdi+rcx]; xor dl, [rsi+rcx]; or al, dl; inc rcx; cmp rcx, 32; jne 1b; ret
f pass_set;           mov rax, [rdi]; xor rax, [rsi]; setne al; movzx eax, al; ret
f pass_conditional;   mov rax, [rdi]; xor rax, [rsi]; mov ecx, 0; mov eax, 23; cmove eax, ecx; ret
f pass_vector;        vmovdqu ymm0, [rdi]; vpxor ymm0, ymm0, [rsi]; xor eax, eax; vptest ymm0, ymm0; setne al; vzeroupper; ret

# a jump on flags made of the bytes
f refuse_early_exit;  xor ecx, ecx; 1: mov dl, [rdi+rcx]; cmp dl, [rsi+rcx]; jne 2f; inc rcx; cmp rcx, 32; jne 1b; 2: ret
f refuse_after_half;  mov rax, [rdi]; xor rax, [rsi]; jne 1f; mov rax, [rdi+8]; xor rax, [rsi+8]; 1: ret
f refuse_by_set;      mov al, [rdi]; cmp al, [rsi]; setne cl; movzx ecx, cl; xor edx, edx; test ecx, ecx; jne 1f; nop; 1: ret
f refuse_by_move;     mov rax, [rdi]; cmp rax, [rsi]; mov ecx, 0; mov edx, 1; cmovne ecx, edx; test edx, edx; cmp ecx, 1; je 1f; nop; 1: ret
f refuse_by_vector;   movdqu xmm0, [rdi]; pxor xmm0, [rsi]; movd eax, xmm0; xor ecx, ecx; test eax, eax; jne 1f; nop; 1: ret
f refuse_by_mask;     movdqu xmm0, [rdi]; pcmpeqb xmm0, [rsi]; pmovmskb eax, xmm0; cmp eax, 0xffff; jne 1f; nop; 1: ret
f refuse_ptest;       movdqu xmm0, [rdi]; pxor xmm0, [rsi]; ptest xmm0, xmm0; jne 1f; nop; 1: ret
f refuse_vptest;      vmovdqu ymm0, [rdi]; vpxor ymm0, ymm0, [rsi]; vptest ymm0, ymm0; jne 1f; nop; 1: ret
f refuse_by_stack;    mov al, [rdi]; mov [rsp-8], al; xor eax, eax; mov cl, [rsp-8]; test cl, cl; jne 1f; nop; 1: ret
f refuse_by_pop;      mov rax, [rdi]; push rax; xor eax, eax; pop rdx; test rdx, rdx; jne 1f; nop; 1: ret
f refuse_part_zero;   mov eax, [rdi]; xor al, al; test eax, eax; jne 1f; nop; 1: ret
f refuse_half_zero;   mov eax, [rdi]; sub ax, ax; test eax, eax; jne 1f; nop; 1: ret
f refuse_high_byte;   mov edx, [rdi]; movzx ecx, dh; xor edx, edx; test cl, cl; jne 1f; nop; 1: ret
f refuse_flags_kept;  mov rax, [rdi]; cmp rax, [rsi]; mov ecx, 7; lea rdx, [rdi+4]; mov r8, rdx; jne 1f; nop; 1: ret
f refuse_carry_kept;  mov rax, [rdi]; xor ecx, ecx; cmp rax, [rsi]; inc ecx; jb 1f; nop; 1: ret
f refuse_by_shift;    mov cl, [rdi]; mov eax, 1; shl eax, cl; test eax, eax; jne 1f; nop; 1: ret
f refuse_by_swap;     mov eax, [rdi]; bswap eax; test eax, eax; jne 1f; nop; 1: ret
f refuse_exchanged;   mov rax, [rdi]; mov ecx, 1; xchg rax, rcx; test ecx, ecx; jne 1f; nop; 1: ret
f refuse_one_way;     xor ecx, ecx; test edi, edi; je 1f; mov ecx, [rdi]; 1: test ecx, ecx; jne 2f; nop; 2: ret
f refuse_next_round;  xor ecx, ecx; xor eax, eax; 1: test ecx, ecx; jne 2f; mov ecx, [rdi+rax]; inc eax; cmp eax, 8; jne 1b; 2: ret
f refuse_all_gathered; xor eax, eax; xor ecx, ecx; 1: mov dl, [rdi+rcx]; xor dl, [rsi+rcx]; or al, dl; cmp al, 255; je 2f; inc rcx; cmp rcx, 32; jne 1b; 2: ret
f refuse_jrcxz;       movzx ecx, byte ptr [rdi]; jrcxz 1f; nop; 1: ret

# a computed way, another function, an address or a time that depends on the bytes, an instruction that is not known
f refuse_jump;        mov rax, [rdi]; jmp rax
f refuse_tail;        xor eax, eax; test edi, edi; je 1f; jmp memcmp; 1: ret
f refuse_call;        call memcmp; ret
f refuse_load_at;     movzx eax, byte ptr [rdi]; mov al, [rsi+rax]; ret
f refuse_store_at;    movzx eax, byte ptr [rdi]; mov byte ptr [rsi+rax], 1; ret
f refuse_division;    mov rax, [rdi]; xor edx, edx; mov ecx, 3; div ecx; ret
f refuse_product;     mov rbx, [rdi]; mov eax, 3; imul rbx; test rax, rax; jne 1f; nop; 1: ret
f refuse_borrow;      mov rax, [rdi]; cmp rax, [rsi]; sbb ecx, ecx; test ecx, ecx; jne 1f; nop; 1: ret
f refuse_string;      mov ecx, 32; repe cmpsb; setne al; ret
f refuse_loop;        movzx ecx, byte ptr [rdi]; 1: loop 1b; ret
f refuse_mask_register; vmovdqu64 zmm0, [rdi]; vpcmpeqb k0, zmm0, [rsi]; kortestq k0, k0; je 1f; nop; 1: ret
