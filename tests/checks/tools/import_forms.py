"""Texts of herd's and diy's forms for tests/batteries.py: those that tools/import reads, each with lines of what it becomes, and those that
it refuses, each with the line at fault and words of the reason."""


def x86(cell, initial="", condition="exists (0:EAX=0)"):
    return "X86 t\n{ %s }\n P0 ;\n %s ;\n%s\n" % (initial, cell, condition)


def x86_64(cell, initial="", condition="exists (0:rax=0)"):
    return "X86_64 t\n{ %s }\n P0 ;\n %s ;\n%s\n" % (initial, cell, condition)


DIY = """X86_64 SB
"PodWR Fre PodWR Fre"
Generator=diyone7 (version 7.56)
Prefetch=0:x=F,0:y=T,1:y=F,1:x=T
Com=Fr Fr
Orig=PodWR Fre PodWR Fre
Align=
{
}
 P0            | P1            ;
 movl $1,(x)   | movl $1,(y)   ;
 movl (y),%eax | movl (x),%eax ;
exists (0:rax=0 /\\ 1:rax=0)
"""

EIGHT = " movl $1,%eax ;\n movl $2,%ebx ;\n movl $3,%ecx ;\n movl $4,%edx ;\n movl $5,%esi ;\n movl $6,%r9d"

READ = [
    ("diy's own SB", DIY, ["X86 SB\n", "MOV [x],$1", "MOV EAX,[y]", "exists (0:EAX=0 /\\ 1:EAX=0)", "Align=\n"]),
    ("carriage returns", DIY.replace("\n", "\r\n"), ["MOV [x],$1  | MOV [y],$1  ;"]),
    ("a store of a number, 32 bits", x86_64("movl $1,(x)"), ["MOV [x],$1 ;"]),
    ("a store of a number, 64 bits that fit 32", x86_64("movq $7,(x)"), ["MOV [x],$7 ;"]),
    ("a store of a hexadecimal number", x86_64("movl $0xff,(x)"), ["MOV [x],$255 ;"]),
    ("a store of a register", x86_64("movl %eax,(x)"), ["MOV [x],EAX ;"]),
    ("a store of a 64-bit register", x86_64("movq %rbx,(x)"), ["MOV [x],EBX ;"]),
    ("a store without a size", x86_64("mov %eax,(x)"), ["MOV [x],EAX ;"]),
    ("a load", x86_64("movl (x),%eax"), ["MOV EAX,[x] ;"]),
    ("a load of 64 bits", x86_64("movq (x),%rax"), ["MOV EAX,[x] ;"]),
    ("a load into a register of the upper eight", x86_64("movl (x),%r8d", condition="exists (0:r8=1)"),
     ["MOV EAX,[x] ;", "exists (0:EAX=1)"]),
    ("its 64-bit name", x86_64("movq (x),%r15", condition="exists (0:r15=1)"), ["MOV EAX,[x] ;", "exists (0:EAX=1)"]),
    ("a free register beside a taken one", x86_64("movl (x),%eax ;\n movl (y),%r9d", condition="exists (0:r9=1)"),
     ["MOV EAX,[x] ;", "MOV EBX,[y] ;", "exists (0:EBX=1)"]),
    ("six registers, one of the upper eight", x86_64(EIGHT, condition="exists (0:r9=6)"), ["MOV EDI,$6 ;", "exists (0:EDI=6)"]),
    ("a register move", x86_64("movl %eax,%ebx"), ["MOV EBX,EAX ;"]),
    ("a register set", x86_64("movl $3,%edx"), ["MOV EDX,$3 ;"]),
    ("a fence", x86_64("mfence"), ["MFENCE ;"]),
    ("an exchange", x86_64("xchgl %eax,(x)"), ["XCHG [x],EAX ;"]),
    ("an exchange the other way round", x86_64("xchgl (x),%eax"), ["XCHG [x],EAX ;"]),
    ("an exchange of 64 bits", x86_64("xchgq %rax,(x)"), ["XCHG [x],EAX ;"]),
    ("a locked exchange", x86_64("lock xchgl %ecx,(x)"), ["XCHG [x],ECX ;"]),
    ("a locked addition", x86_64("lock xaddl %eax,(x)"), ["LOCK XADD [x],EAX ;"]),
    ("a locked addition with a semicolon's blank", x86_64("lock  xaddl %eax , (x)"), ["LOCK XADD [x],EAX ;"]),
    ("capitals", x86_64("MOVL $1,(x)"), ["MOV [x],$1 ;"]),
    ("Intel's order", x86("MOV [x],$1"), ["MOV [x],$1 ;"]),
    ("Intel's order in small letters", x86("mov [x],1"), ["MOV [x],$1 ;"]),
    ("Intel's order with a size", x86("mov dword ptr [x],2"), ["MOV [x],$2 ;"]),
    ("Intel's load", x86("MOV EAX,[x]"), ["MOV EAX,[x] ;"]),
    ("Intel's load into a 64-bit register", x86_64("mov rbx,[x]"), ["MOV EBX,[x] ;"]),
    ("Intel's exchange", x86("XCHG EAX,[x]"), ["XCHG [x],EAX ;"]),
    ("Intel's locked addition", x86("LOCK XADD [x],EAX"), ["LOCK XADD [x],EAX ;"]),
    ("Intel's move", x86("MOV EBX,EAX"), ["MOV EBX,EAX ;"]),
    ("a number first, which is no destination", x86("MOV $1,[x]"), ["MOV [x],$1 ;"]),
    ("a number first, beside a register", x86("MOV $1,EBX"), ["MOV EBX,$1 ;"]),
    ("typed words", x86_64("movl $1,(x)", "uint32_t x=1; int y=2; int32_t z=3;"), ["{ x=1; y=2; z=3; }"]),
    ("a type alone", x86_64("movl $1,(x)", "int x; uint32_t 0:rax;"), ["{ x=0; }"]),
    ("words of 64 bits", x86_64("movq $1,(x)", "int64_t x=5; uint64_t y=6;"), ["{ x=5; y=6; }"]),
    ("hexadecimal words", x86_64("movl $1,(x)", "x=0x10; [y]=0xFFFFFFFF;"), ["{ x=16; y=4294967295; }"]),
    ("first registers", x86_64("movl %ebx,(x)", "0:rbx=3; 0:eax=0x4;"), ["{ 0:EBX=3; 0:EAX=4; }"]),
    ("a first register of the upper eight", x86_64("movl %r10d,(x)", "0:r10=3;", "exists (x=3)"), ["{ 0:EAX=3; }", "MOV [x],EAX ;"]),
    ("a hexadecimal number in the condition", x86_64("movl (x),%eax", condition="exists (0:rax=0x1)"), ["exists (0:EAX=1)"]),
    ("not, or, brackets and forall", x86_64("movl (x),%eax", condition="forall (0:eax=1 \\/ not ([x]=0 /\\ 0:%rax=2))"),
     ["forall (0:EAX=1 \\/ ~(x=0 /\\ 0:EAX=2))"]),
    ("observed locations", x86_64("movl (x),%eax", condition="locations [x; 0:rax;]\n~exists (0:rax=1)"), ["~exists (0:EAX=1)"]),
    ("no condition", x86_64("movl $1,(x)", condition=""), ["MOV [x],$1 ;"]),
    ("a negative constant", x86_64("movl $-1,(x)"), ["MOV [x],$4294967295 ;"]),
    ("a negative constant of Intel's", x86("MOV [x],-2"), ["MOV [x],$4294967294 ;"]),
    ("the least negative number", x86("MOV EAX,-0x80000000"), ["MOV EAX,$2147483648 ;"]),
    ("a negative first word", x86_64("movl $1,(x)", "x=-1;"), ["{ x=4294967295; }"]),
    ("a negative first word of a type", x86_64("movl $1,(x)", "int x=-1; 0:eax=-3;"), ["{ x=4294967295; 0:EAX=4294967293; }"]),
    ("negative words of an array", x86_64("movl $1,4(%rsi)", "int x[2]={1,-1}; 0:rsi=x;", "exists (x[1]=1)"),
     ["x_1=4294967295;", "MOV [x_1],$1"]),
    ("a negative number in the condition", x86("MOV EAX,[x]", condition="exists (0:EAX=-1 /\\ [x]=-2)"),
     ["exists (0:EAX=4294967295 /\\ x=4294967294)"]),
    ("another fence", x86_64("sfence"), ["NOP ;"]),
    ("a fence of loads", x86("LFENCE"), ["NOP ;"]),
    ("a pause", x86_64("pause"), ["NOP ;"]),
    ("nothing", x86("nop"), ["NOP ;"]),
    ("a compare and exchange", x86_64("lock cmpxchgl %ebx,(x)"), ["LOCK CMPXCHG [x],EBX ;"]),
    ("a compare and exchange of 64 bits", x86_64("lock cmpxchgq %rcx,(x)"), ["LOCK CMPXCHG [x],ECX ;"]),
    ("Intel's compare and exchange", x86("LOCK CMPXCHG [x],EBX"), ["LOCK CMPXCHG [x],EBX ;"]),
    ("a compare and exchange, whose EAX is no other register's name", x86_64("lock cmpxchgl %r8d,(x)", condition="exists (0:r8=1)"),
     ["LOCK CMPXCHG [x],EBX ;", "exists (0:EBX=1)"]),
    ("a locked increment", x86("LOCK INC [x]"), ["LOCK ADD [x],$1 ;"]),
    ("a locked decrement", x86_64("lock decl (x)"), ["LOCK SUB [x],$1 ;"]),
    ("a locked negation", x86_64("lock negl (x)"), ["LOCK NEG [x] ;"]),
    ("a locked complement", x86_64("lock notl (x)"), ["LOCK XOR [x],$4294967295 ;"]),
    ("a locked sum with a number", x86_64("lock addl $2,(x)"), ["LOCK ADD [x],$2 ;"]),
    ("a locked sum with a negative number", x86_64("lock addl $-1,(x)"), ["LOCK ADD [x],$4294967295 ;"]),
    ("a locked difference with a register", x86_64("lock subl %ecx,(x)"), ["LOCK SUB [x],ECX ;"]),
    ("a locked or, Intel's", x86("LOCK OR DWORD PTR [x],0"), ["LOCK OR [x],$0 ;"]),
    ("a locked and", x86_64("lock andl %ebx,(x)"), ["LOCK AND [x],EBX ;"]),
    ("a locked xor", x86("lock xor [x],eax"), ["LOCK XOR [x],EAX ;"]),
    ("a sum of registers", x86_64("addl %ebx,%eax"), ["ADD EAX,EBX ;"]),
    ("a difference of registers, Intel's", x86("SUB EAX,EBX"), ["SUB EAX,EBX ;"]),
    ("a register emptied by itself", x86_64("xorl %eax,%eax"), ["XOR EAX,EAX ;"]),
    ("an increment of a register", x86_64("incl %eax"), ["ADD EAX,$1 ;"]),
    ("a negation of a register of the upper eight", x86_64("negl %r9d", condition="exists (0:r9=1)"), ["NEG EAX ;", "exists (0:EAX=1)"]),
    ("an exchange of two registers", x86_64("xchgl %eax,%ebx"), ["XCHG EBX,EAX ;"]),
    ("comments", x86_64("movl $1,(x) (* a store\n over lines *)"), ["MOV [x],$1 ;"]),
]

REFUSED = [
    ("a register of Intel's beside AT&T's location", x86("MOV EAX,(x)"), 4, "which one it has isn't known"),
    ("AT&T's location before a register of Intel's", x86("MOV (x),EAX"), 4, "which one it has isn't known"),
    ("a register of AT&T's beside Intel's location", x86_64("movl %eax,[x]"), 4, "which one it has isn't known"),
    ("Intel's location before a register of AT&T's", x86_64("movl [x],%eax"), 4, "which one it has isn't known"),
    ("registers of both", x86_64("movl %eax,ebx"), 4, "which one it has isn't known"),
    ("an exchange with signs of both", x86("XCHG EAX,(x)"), 4, "which one it has isn't known"),
    ("two numbers", x86("MOV $1,$2"), 4, "such operands"),
    ("a number without $ in AT&T's order", x86_64("movl 1,%eax"), 4, "an address"),
    ("a number without $ before AT&T's location", x86_64("movl 1,(x)"), 4, "an address"),
    ("a first word twice", x86("MOV [x],$1", "x=0; x=1;"), 2, "given twice"),
    ("a negative first word of 64 bits", x86_64("movl $1,(x)", "int64_t x=-1;"), 2, "negative"),
    ("a negative first word that is used with 64 bits", x86_64("movq $1,(x)", "x=-1;"), 2, "negative"),
    ("a negative first register of 64 bits", x86_64("movl $1,(x)", "0:rax=-1;"), 2, "negative"),
    ("negative words of an array of 64 bits", x86_64("movl $1,(y)", "int64_t x[2]={1,-1};"), 2, "negative"),
    ("a negative constant of 64 bits", x86_64("movq $-1,(x)"), 4, "where the place has 32 bits write 4294967295"),
    ("a negative constant for a register of 64 bits", x86_64("mov $-1,%rax"), 4, "negative"),
    ("a negative constant without a size", x86_64("MOV [x],-1"), 4, "negative"),
    ("a negative number that no word of 32 bits is", x86_64("movl $-2147483649,(x)"), 4, "doesn't fit 32 bits"),
    ("a negative number in the condition", x86_64("movl (x),%eax", condition="exists (0:rax=-1)"), 5, "negative"),
    ("a constant of 33 bits", x86_64("movq $4294967296,(x)"), 4, "fit 32 bits"),
    ("an address in a location", x86_64("movl $1,(x)", "y=x;"), 2, "addresses"),
    ("an address in a register", x86_64("movl $1,(%rsi)"), 4, "addresses"),
    ("a pointer", x86_64("movl $1,(x)", "int *p=1;"), 2, "arrays and pointers"),
    ("an array", x86_64("movl $1,(x)", "int x[2]=1;"), 2, "arrays and pointers"),
    ("a type of 16 bits", x86_64("movl $1,(x)", "int16_t x=1;"), 2, "type int16_t"),
    ("a byte", x86_64("movb $1,(x)"), 4, "32 bits alone"),
    ("a part of a register", x86_64("mov %al,(x)"), 4, "part of a register"),
    ("two sizes of one location", x86_64("movl $1,(x) ;\n movq (x),%rax", "int x;"), 5, "one size alone"),
    ("a sum of 64 bits", x86_64("lock xaddq %rax,(x)"), 4, "64 bits"),
    ("a seventh register", x86_64(EIGHT + " ;\n movl $7,%r10d"), 10, "seventh register"),
    ("a fence of stores with LOCK", x86_64("lock sfence"), 4, "alone are read"),
    ("a fence of stores with an operand", x86("SFENCE EAX"), 4, "no operands"),
    ("a compare and exchange without LOCK", x86_64("cmpxchgl %ebx,(x)"), 4, "LOCK alone"),
    ("a compare and exchange whose EAX is an address", x86_64("lock cmpxchgl %ebx,(x)", "0:rax=y;", "exists (x=1)"), 4, "holds the address"),
    ("a compare and exchange of two registers", x86("LOCK CMPXCHG EBX,ECX"), 4, "such operands"),
    ("a compare and exchange with a number", x86("LOCK CMPXCHG [x],1"), 4, "such operands"),
    ("an increment", x86_64("incl (x)"), 4,
     "in one step it is LOCK INC [x]; without LOCK write three cells: MOV EAX,[x]  INC EAX  MOV [x],EAX"),
    ("a sum with EAX in memory", x86("ADD [x],EAX"), 4, "MOV EBX,[x]  ADD EBX,EAX  MOV [x],EBX"),
    ("a sum of a location in a register", x86("ADD EAX,[x]"), 4, "such operands"),
    ("a locked sum in a register", x86("LOCK ADD EAX,1"), 4, "computes in memory alone"),
    ("a locked sum of 64 bits", x86_64("lock addq $1,(x)"), 4, "64 bits"),
    ("a locked sum that says no size", x86_64("lock add [x],1"), 4, "says no size"),
    ("an increment of 64 bits", x86_64("incq %rax"), 4, "64 bits"),
    ("an increment of two operands", x86("INC EAX,1"), 4, "one operand"),
    ("a shift", x86_64("shll $1,%eax"), 4, "where its result is used write the number"),
    ("an instruction of which nothing is known", x86_64("rdtsc"), 4, "alone are read"),
    ("a text that is too long", x86("MOV [x],$1 (* %s *)" % ("a" * 65_536)), 1, "at most 65536 bytes"),
    ("an addition without LOCK", x86_64("xaddl %eax,(x)"), 4, "LOCK alone"),
    ("a locked exchange of two registers", x86_64("lock xchgl %eax,%ebx"), 4, "such operands"),
    ("a jump", x86_64("jmp L0"), 4, "a program has no jumps: leave it out"),
    ("a filter", x86_64("movl (x),%eax", condition="filter (x=1)\nexists (0:rax=1)"), 5, "filter"),
    ("another architecture", "AArch64 t\n{ }\n P0 ;\n MOV W0,#1 ;\n", 1, "X86"),
    ("a core that isn't there", x86_64("movl (x),%eax", condition="exists (3:rax=1)"), 5, "no core 3"),
    ("a row with a cell too many", x86_64("movl (x),%eax | mfence"), 4, "one cell for each core"),
    ("a condition that isn't closed", x86_64("movl (x),%eax", condition="exists (0:rax=1"), 5, "should stand"),
]
