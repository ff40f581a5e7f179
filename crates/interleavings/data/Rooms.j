; Both threads make objects, where there is one cell for all of them once the collector has taken it back.
.class public Rooms
.super java/lang/Thread

.method public static main()V
.limit stack 1
.limit locals 0
    new Rooms
    invokevirtual Rooms/start()V
Top:
    new java/lang/Object
    pop
    goto Top
.end method

.method public run()V
.limit stack 1
.limit locals 1
    aconst_null
    astore_0
Top:
    new java/lang/Object
    pop
    goto Top
.end method
