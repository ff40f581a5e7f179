; A class with fields that implements an interface (Shape.j), called through it. Prints 36.
.class public final Square
.super java/lang/Object
.implements Shape
.field private side I

.method public <init>(I)V
.limit stack 2
.limit locals 2
aload_0
invokespecial java/lang/Object/<init>()V
aload_0
iload_1
putfield Square/side I
return
.end method

.method public area()I
.limit stack 3
.limit locals 1
aload_0
getfield Square/side I
dup
imul
ireturn
.end method

.method public static main()V
.limit stack 3
.limit locals 0
new Square
dup
bipush 6
invokespecial Square/<init>(I)V
invokeinterface Shape/area()I 1
invokestatic vm/Sys/print(I)V
return
.end method
