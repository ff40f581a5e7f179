; Two threads add one to a count, and neither locks it. Prints 2, or 1 where one of them reads the count before the other one has
; written it: an update is lost.
.class public lost_update
.super java/lang/Thread

.field static count I

.method public <init>()V
.limit stack 1
.limit locals 1
    aload_0
    invokespecial java/lang/Thread/<init>()V
    return
.end method

.method public run()V
.limit stack 2
.limit locals 1
    getstatic lost_update/count I
    iconst_1
    iadd
    putstatic lost_update/count I
    return
.end method

.method public static main()V
.limit stack 2
.limit locals 1
    new lost_update
    dup
    invokespecial lost_update/<init>()V
    astore_0
    aload_0
    invokevirtual lost_update/start()V
    getstatic lost_update/count I
    iconst_1
    iadd
    putstatic lost_update/count I
    aload_0
    invokevirtual lost_update/join()V
    getstatic lost_update/count I
    invokestatic vm/Sys/print(I)V
    return
.end method
