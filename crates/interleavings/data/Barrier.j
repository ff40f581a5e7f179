; Thread 0 stores new objects into the object of thread 1, which loads what is stored there.
.class public Barrier
.super java/lang/Thread
.field kept LBarrier;
.field static shared LBarrier;

.method public static main()V
.limit stack 2
.limit locals 0
    new Barrier
    dup
    putstatic Barrier/shared LBarrier;
    invokevirtual Barrier/start()V
Top:
    getstatic Barrier/shared LBarrier;
    new Barrier
    putfield Barrier/kept LBarrier;
    goto Top
.end method

.method public run()V
.limit stack 1
.limit locals 2
Top:
    aload_0
    getfield Barrier/kept LBarrier;
    astore_1
    goto Top
.end method
