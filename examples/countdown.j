; prints 3, 2 and 1
.class public Countdown
.super java/lang/Object

.method public static main()V
  .limit stack 1
  .limit locals 1
  iconst_3
  istore_0
Again:
  iload_0
  invokestatic vm/Sys/print(I)V
  iinc 0 -1
  iload_0
  ifgt Again
  return
.end method
