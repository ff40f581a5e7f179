; Prints `Hello, world` byte by byte, out of an array: a loop, `baload`, and `putc`, which prints one byte.
.class public Hello
.super java/lang/Object
.field private static text [B

; text[index] = letter
.method private static put(II)V
.limit stack 3
.limit locals 2
getstatic Hello/text [B
iload_0
iload_1
bastore
return
.end method

.method private static fill()V
.limit stack 2
.limit locals 0
bipush 13
newarray byte
putstatic Hello/text [B
iconst_0
bipush 72
invokestatic Hello/put(II)V
iconst_1
bipush 101
invokestatic Hello/put(II)V
iconst_2
bipush 108
invokestatic Hello/put(II)V
iconst_3
bipush 108
invokestatic Hello/put(II)V
iconst_4
bipush 111
invokestatic Hello/put(II)V
iconst_5
bipush 44
invokestatic Hello/put(II)V
bipush 6
bipush 32
invokestatic Hello/put(II)V
bipush 7
bipush 119
invokestatic Hello/put(II)V
bipush 8
bipush 111
invokestatic Hello/put(II)V
bipush 9
bipush 114
invokestatic Hello/put(II)V
bipush 10
bipush 108
invokestatic Hello/put(II)V
bipush 11
bipush 100
invokestatic Hello/put(II)V
bipush 12
bipush 10
invokestatic Hello/put(II)V
return
.end method

.method public static main()V
.limit stack 2
.limit locals 1
invokestatic Hello/fill()V
iconst_0
istore_0
Next:
iload_0
getstatic Hello/text [B
arraylength
if_icmpge Done
getstatic Hello/text [B
iload_0
baload
invokestatic vm/Sys/putc(I)V
iinc 0 1
goto Next
Done:
return
.end method
