; Peterson's algorithm: two threads keep each other out with three fields and no lock. Each says that it wants in, gives way, and
; waits as long as the other one wants in too and it was itself the last to give way. Inside it adds one to a count. Prints 2 always.
.class public peterson
.super java/lang/Thread

.field static main_wants I
.field static thread_wants I
; who was the last to give way: 0 main, 1 the thread
.field static last I
.field static count I

.method public <init>()V
.limit stack 1
.limit locals 1
    aload_0
    invokespecial java/lang/Thread/<init>()V
    return
.end method

.method public run()V
.limit stack 2
.limit locals 1
    iconst_1
    putstatic peterson/thread_wants I
    iconst_1
    putstatic peterson/last I
Wait:
    getstatic peterson/main_wants I
    ifeq Inside
    getstatic peterson/last I
    ifne Wait
Inside:
    getstatic peterson/count I
    iconst_1
    iadd
    putstatic peterson/count I
    iconst_0
    putstatic peterson/thread_wants I
    return
.end method

.method public static main()V
.limit stack 2
.limit locals 1
    new peterson
    dup
    invokespecial peterson/<init>()V
    astore_0
    aload_0
    invokevirtual peterson/start()V
    iconst_1
    putstatic peterson/main_wants I
    iconst_0
    putstatic peterson/last I
Wait:
    getstatic peterson/thread_wants I
    ifeq Inside
    getstatic peterson/last I
    ifeq Wait
Inside:
    getstatic peterson/count I
    iconst_1
    iadd
    putstatic peterson/count I
    iconst_0
    putstatic peterson/main_wants I
    aload_0
    invokevirtual peterson/join()V
    getstatic peterson/count I
    invokestatic vm/Sys/print(I)V
    return
.end method
