.class public E
.super java/lang/Object
.method public static main()V
.limit stack 0
.limit locals 0
return
.end method
