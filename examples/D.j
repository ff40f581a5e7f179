; Two threads, each of which locks two objects, in opposite orders: they get stuck. D.journal has another schedule.
.class D
.super java/lang/Thread
.field static a Ljava/lang/Object;
.field static b Ljava/lang/Object;
.method static main()V
.limit stack 1
.limit locals 0
new java/lang/Object
putstatic D/a Ljava/lang/Object;
new java/lang/Object
putstatic D/b Ljava/lang/Object;
new D
invokevirtual D/start()V
getstatic D/a Ljava/lang/Object;
monitorenter
getstatic D/b Ljava/lang/Object;
monitorenter
getstatic D/b Ljava/lang/Object;
monitorexit
getstatic D/a Ljava/lang/Object;
monitorexit
return
.end method
.method run()V
.limit stack 1
.limit locals 1
getstatic D/b Ljava/lang/Object;
monitorenter
getstatic D/a Ljava/lang/Object;
monitorenter
getstatic D/a Ljava/lang/Object;
monitorexit
getstatic D/b Ljava/lang/Object;
monitorexit
return
.end method
