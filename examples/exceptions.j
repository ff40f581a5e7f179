; How exceptions find their handler. `share` divides, and leaves by ArithmeticException where the divisor is 0; its caller
; `safely` has a handler that gives -1, and one for everything else that throws it on. main throws an exception of its own
; class out of `fail` and takes it by its superclass. Prints 4, -1 and 7.
.class public Exceptions
.super java/lang/Exception
.field private final code I

.method public <init>(I)V
.limit stack 2
.limit locals 2
aload_0
invokespecial java/lang/Exception/<init>()V
aload_0
iload_1
putfield Exceptions/code I
return
.end method

.method static share(II)I
.limit stack 2
.limit locals 2
iload_0
iload_1
idiv
ireturn
.end method

.method static safely(II)I
.limit stack 2
.limit locals 2
.catch java/lang/ArithmeticException from Try to Tried using ByZero
.catch all from Try to Tried using Other
Try:
iload_0
iload_1
invokestatic Exceptions/share(II)I
ireturn
Tried:
ByZero:
pop
iconst_m1
ireturn
Other:
athrow
.end method

.method static fail()V
.limit stack 3
.limit locals 0
new Exceptions
dup
bipush 7
invokespecial Exceptions/<init>(I)V
athrow
.end method

.method public static main()V
.limit stack 2
.limit locals 0
.catch java/lang/Exception from Begin to End using Taken
bipush 20
iconst_5
invokestatic Exceptions/safely(II)I
invokestatic vm/Sys/print(I)V
bipush 20
iconst_0
invokestatic Exceptions/safely(II)I
invokestatic vm/Sys/print(I)V
Begin:
invokestatic Exceptions/fail()V
End:
return
Taken:
checkcast Exceptions
getfield Exceptions/code I
invokestatic vm/Sys/print(I)V
return
.end method
