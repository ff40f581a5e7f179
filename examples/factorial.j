; Prints 20!, the greatest factorial that a long holds: 2432902008176640000. A method that calls itself, and longs.
.class public Factorial
.super java/lang/Object

; n! for an int n
.method static of(I)J
.limit stack 4
.limit locals 1
iload_0
ifgt More
lconst_1
lreturn
More:
iload_0
i2l
iload_0
iconst_1
isub
invokestatic Factorial/of(I)J
lmul
lreturn
.end method

.method public static main()V
.limit stack 2
.limit locals 0
bipush 20
invokestatic Factorial/of(I)J
invokestatic vm/Sys/printl(J)V
return
.end method
