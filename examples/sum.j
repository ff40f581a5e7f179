; Adds 1 to the greatest int, which gives the least one.
.class public Sum
.super java/lang/Object
.method public static main()V
.limit stack 2
.limit locals 0
ldc 2147483647
iconst_1
iadd
invokestatic vm/Sys/print(I)V
return
.end method
