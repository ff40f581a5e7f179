; Two threads count under one lock, beside the collector; main waits for both.
.class public workers
.super java/lang/Thread

.field static lock Ljava/lang/Object;
.field static count I

.method public <init>()V
.limit stack 1
.limit locals 1
    aload_0
    invokespecial java/lang/Thread/<init>()V
    return
.end method

.method public run()V
.limit stack 3
.limit locals 3
    bipush 100
    istore_1
Again:
    getstatic workers/lock Ljava/lang/Object;
    dup
    astore_2
    monitorenter
    getstatic workers/count I
    iconst_1
    iadd
    putstatic workers/count I
    aload_2
    monitorexit
    new java/lang/Object
    pop
    iinc 1 -1
    iload_1
    ifne Again
    return
.end method

.method public static main()V
.limit stack 2
.limit locals 2
    new java/lang/Object
    dup
    invokespecial java/lang/Object/<init>()V
    putstatic workers/lock Ljava/lang/Object;
    new workers
    dup
    invokespecial workers/<init>()V
    astore_0
    new workers
    dup
    invokespecial workers/<init>()V
    astore_1
    aload_0
    invokevirtual workers/start()V
    aload_1
    invokevirtual workers/start()V
    aload_0
    invokevirtual workers/join()V
    aload_1
    invokevirtual workers/join()V
    getstatic workers/count I
    invokestatic vm/Sys/print(I)V
    return
.end method
